//! The model's state as the library's, and the names of the fields in which two of the library's states differ.

use plain_clock::{State, Turn};

fn levels(of: u64) -> r6501q::Levels {
    r6501q::Levels { ports: of as u32, nmi: (of >> 32 & 1) as u8, res: (of >> 33 & 1) as u8 }
}

fn peripherals(state: &State) -> r6501q::Peripherals {
    let [a, b, c, d] = state.ports;
    r6501q::Peripherals {
        ports: r6501q::Ports { a, b, c, d },
        countera: r6501q::CounterA { count: state.counter_a, latch: state.latch_a },
        counterb: r6501q::CounterB {
            count: state.counter_b,
            latchb: state.latch_b,
            latchc: state.latch_c,
            turnc: u8::from(state.turn == Turn::C),
        },
        control: r6501q::Control { ifr: state.ifr, ier: state.ier, mcr: state.mcr, sccr: state.sccr, scsr: state.scsr },
        serial: r6501q::SerialData { sent: state.data_sent, received: state.data_received },
        transmitter: r6501q::Transmitter {
            left: state.transmitter.bits_left,
            phase: state.transmitter.phase,
            register: state.transmitter.register,
        },
        receiver: r6501q::Receiver {
            subinterval: state.receiver.sub_interval,
            half: state.receiver.half,
            left: state.receiver.bits_left,
            register: state.receiver.register,
        },
    }
}

fn waiting(state: &State) -> r6501q::Waiting {
    state.waiting.map_or(r6501q::Waiting::NONE, |byte| r6501q::Waiting::byte(byte.address, byte.value))
}

pub fn library_state(state: &State) -> r6501q::State {
    r6501q::State {
        cpu: r6501q::Cpu {
            a: state.a,
            x: state.x,
            y: state.y,
            sp: state.sp,
            p: state.p,
            pc: state.pc,
            wait: state.wait,
            waiting: waiting(state),
        },
        due: r6501q::Due { reset: u8::from(state.reset_due), nmi: u8::from(state.nmi_due) },
        peripherals: peripherals(state),
        external: levels(state.external),
        last: levels(state.last),
        clock: state.clock,
    }
}

/// What the bytes of a state can have and the model's state cannot: a flag or level above 1, and a none waiting that
/// has an address or a value. Half is a number in the model, so that it is damaged there too.
pub const DAMAGES: u32 = 13;

/// Puts a byte above 1 into one of the flags and levels, or into a none waiting.
pub fn damage_bytes(state: &mut r6501q::State, damage: u32, byte: u8) {
    let none = r6501q::Waiting::NONE;
    match damage {
        0 => state.due.reset = byte,
        1 => state.due.nmi = byte,
        2 => state.peripherals.counterb.turnc = byte,
        3 => state.peripherals.receiver.half = byte,
        4 => state.external.nmi = byte,
        5 => state.external.res = byte,
        6 => state.last.nmi = byte,
        7 => state.last.res = byte,
        8 => state.cpu.waiting.there = byte,
        9 => state.cpu.waiting = r6501q::Waiting { address: u16::from(byte), ..none },
        10 => state.cpu.waiting = r6501q::Waiting { address: u16::from(byte) << 8, ..none },
        11 => state.cpu.waiting = r6501q::Waiting { value: byte, ..none },
        _ => state.cpu.waiting = r6501q::Waiting { address: u16::from(byte), value: byte, ..none },
    }
}

/// The first field in which the two differ, with both values.
pub fn first_difference(library: &r6501q::State, model: &r6501q::State) -> Option<String> {
    if library == model {
        return None;
    }
    let (l, m) = (library, model);
    macro_rules! compare {
        ($($($name:ident).+),* $(,)?) => {
            $(if l.$($name).+ != m.$($name).+ {
                let name = stringify!($($name).+).replace(' ', "");
                return Some(format!("{name}: library {:X}h, model {:X}h", l.$($name).+, m.$($name).+));
            })*
        };
    }
    compare!(
        clock,
        cpu.a,
        cpu.x,
        cpu.y,
        cpu.sp,
        cpu.p,
        cpu.pc,
        cpu.wait,
        cpu.waiting.there,
        cpu.waiting.address,
        cpu.waiting.value,
        due.reset,
        due.nmi,
        peripherals.ports.a,
        peripherals.ports.b,
        peripherals.ports.c,
        peripherals.ports.d,
        peripherals.countera.count,
        peripherals.countera.latch,
        peripherals.counterb.count,
        peripherals.counterb.latchb,
        peripherals.counterb.latchc,
        peripherals.counterb.turnc,
        peripherals.control.ifr,
        peripherals.control.ier,
        peripherals.control.mcr,
        peripherals.control.sccr,
        peripherals.control.scsr,
        peripherals.serial.sent,
        peripherals.serial.received,
        peripherals.transmitter.left,
        peripherals.transmitter.phase,
        peripherals.transmitter.register,
        peripherals.receiver.subinterval,
        peripherals.receiver.half,
        peripherals.receiver.left,
        peripherals.receiver.register,
        external.ports,
        external.nmi,
        external.res,
        last.ports,
        last.nmi,
        last.res,
    );
    unreachable!("states that differ in no field")
}
