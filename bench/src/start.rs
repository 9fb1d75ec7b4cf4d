// A chip amid the busy program, at the start of an instruction: where runs begin again and again.

use r6501q::{Chip, State};

// Past what the program does before its rounds.
const BEFORE: u32 = 100_000;

pub struct Start {
    pub state: State,
    pub memory: Vec<u8>,
}

impl Start {
    // The program writes no port.
    pub fn new(memory: Vec<u8>) -> Result<Start, String> {
        let mut chip = Chip::with(State::fresh(), memory);
        chip.release();
        chip.run(BEFORE).map_err(|number| number.to_string())?;
        chip.run(u32::from(chip.state.cpu.wait)).map_err(|number| number.to_string())?;
        Ok(Start { state: chip.state, memory: chip.memory })
    }
}
