//! Opcodes that an assembler for a 65C02 lets through and that this chip has not.

/// Opcode and instruction, in order.
#[rustfmt::skip]
const OF_65C02: [(u8, &str); 29] = [
    (0x04, "TSB zp"), (0x0C, "TSB abs"), (0x12, "ORA (zp)"), (0x14, "TRB zp"), (0x1A, "INC A"), (0x1C, "TRB abs"),
    (0x32, "AND (zp)"), (0x34, "BIT zp,X"), (0x3A, "DEC A"), (0x3C, "BIT abs,X"), (0x52, "EOR (zp)"), (0x5A, "PHY"),
    (0x64, "STZ zp"), (0x72, "ADC (zp)"), (0x74, "STZ zp,X"), (0x7A, "PLY"), (0x7C, "JMP (abs,X)"), (0x80, "BRA"),
    (0x89, "BIT #"), (0x92, "STA (zp)"), (0x9C, "STZ abs"), (0x9E, "STZ abs,X"), (0xB2, "LDA (zp)"), (0xCB, "WAI"),
    (0xD2, "CMP (zp)"), (0xDA, "PHX"), (0xDB, "STP"), (0xF2, "SBC (zp)"), (0xFA, "PLX"),
];

/// What an undefined opcode is on a 65C02, if it is an instruction there.
pub fn of_65c02(opcode: u8) -> Option<&'static str> {
    OF_65C02.iter().find(|(known, _)| *known == opcode).map(|(_, name)| *name)
}

#[cfg(test)]
mod tests {
    use super::*;
    use r6501q::{run, Number, State, MEMORY_LENGTH};

    #[test]
    fn the_chip_has_none_of_them() {
        for (opcode, name) in OF_65C02 {
            let mut memory = vec![opcode; MEMORY_LENGTH];
            let result = run(State::fresh(), &mut memory, &[1], &[97], &mut [], &mut [], 20, None);
            assert_eq!(result.number, Number::UndefinedOpcode, "{name}");
        }
        assert_eq!((of_65c02(0xDA), of_65c02(0xEA), of_65c02(0x02)), (Some("PHX"), None, None));
    }
}
