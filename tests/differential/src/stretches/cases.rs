//! What goes by stretches: the benchmark's firmware with its inputs, and polling firmware, with frames, breaks and
//! changes of many pins.

use differential::firmware::{clocks_per_bit, frames, memory, Firmware, Inputs, ALL, FIRST};
use differential::random::Random;
use r6501q::{Level, Pin};
use std::path::Path;

/// What comes in while a firmware runs.
#[derive(Clone, Copy)]
enum Coming {
    /// What the benchmark has for this firmware.
    Benchmark(&'static Firmware),
    Nothing,
    /// Bytes on PA7, now and then a pause between them.
    Bytes {
        latch: u32,
    },
    /// PA7 low and high for long times by turns: frames with a low stop, one behind the other, and lines at rest.
    Breaks {
        latch: u32,
    },
    /// Edges of PA0 to PA3 and NMI, levels of PA4, PA5 and PA7, some on one clock; now and then RES low for a while.
    Edges,
}

/// A firmware with what comes in.
pub struct Case {
    pub name: String,
    image: &'static str,
    coming: Coming,
}

/// All of them; the benchmark's first.
pub fn cases() -> Vec<Case> {
    let benchmark = |firmware: &'static Firmware| Case {
        name: firmware.name.to_string(),
        image: firmware.image,
        coming: Coming::Benchmark(firmware),
    };
    let mut cases: Vec<Case> = ALL.iter().map(benchmark).collect();
    let serial = [
        ("mill_interrupt", 6),
        ("mill_polled", 6),
        ("serial_0", 0),
        ("serial_6", 6),
        ("serial_12", 12),
        ("status_0", 0),
        ("status_6", 6),
        ("status_12", 12),
        ("status_parity", 6),
        ("watch_0", 0),
        ("watch_6", 6),
        ("watch_12", 12),
        ("watch_shift", 6),
        ("ticks", 6),
        ("interrupt", 40),
    ];
    for (image, latch) in serial {
        for (text, coming) in [("breaks", Coming::Breaks { latch }), ("bytes and pauses", Coming::Bytes { latch })] {
            cases.push(Case { name: format!("{image}, {text}"), image, coming });
        }
    }
    for image in ["poll", "watch_6", "pulses", "mill_interrupt"] {
        cases.push(Case { name: format!("{image}, edges"), image, coming: Coming::Edges });
    }
    cases.push(Case { name: "pulses".to_string(), image: "pulses", coming: Coming::Nothing });
    cases
}

impl Case {
    pub fn memory(&self, made: &Path) -> Result<Vec<u8>, String> {
        memory(made, self.image)
    }

    /// Clocks from the fall of PA7 to behind the last bit of a break's frame, where breaks come, and not too slowly.
    pub fn break_clocks(&self) -> Option<u32> {
        match self.coming {
            Coming::Breaks { latch: latch @ ..=12 } => Some(FALL_TO_LAST_BIT * (latch + 1)),
            _ => None,
        }
    }

    /// The inputs of so many clocks.
    pub fn inputs(&self, random: &Random, clocks: u32) -> Inputs {
        match self.coming {
            Coming::Benchmark(firmware) => firmware.inputs(clocks),
            Coming::Nothing => Inputs::default(),
            Coming::Bytes { latch } => spaced_bytes(random, clocks, clocks_per_bit(latch)),
            Coming::Breaks { latch } => breaks(random, clocks, latch),
            Coming::Edges => edges(random, clocks),
        }
    }
}

/// Ticks from a line's fall to behind the last bit of its frame: four looks and ten bits, and some more.
const FALL_TO_LAST_BIT: u32 = 180;

/// Without parity a frame has eleven bits.
const FRAME_BITS: u32 = 11;

fn spaced_bytes(random: &Random, clocks: u32, bit: u32) -> Inputs {
    let mut bytes = Vec::new();
    let mut clock = FIRST;
    while clock < clocks {
        bytes.push((clock, random.byte()));
        clock += FRAME_BITS * bit + if random.percent(30) { random.below(4 * FRAME_BITS * bit) } else { 0 };
    }
    frames(bytes.into_iter(), bit)
}

/// From half of a frame to some eight frames each.
fn breaks(random: &Random, clocks: u32, latch: u32) -> Inputs {
    let mut inputs = Inputs::default();
    let (mut clock, mut level) = (FIRST, Level::Low);
    while clock < clocks {
        inputs.0.push(clock);
        inputs.1.push(Pin::PA7.code(level));
        level = Level::from(level == Level::Low);
        clock += (latch + 1) * random.between(70, 1_360) + random.below(7);
    }
    inputs
}

fn edges(random: &Random, clocks: u32) -> Inputs {
    let pins = [Pin::PA0, Pin::PA1, Pin::PA2, Pin::PA3, Pin::PA4, Pin::PA5, Pin::PA7, Pin::NMI];
    let mut inputs = Inputs::default();
    let mut clock = FIRST;
    while clock < clocks {
        let chosen = random.byte() & random.byte() & random.byte();
        for (place, pin) in pins.iter().enumerate().filter(|(place, _)| chosen >> place & 1 == 1) {
            // NMI mostly high, so that firmware gets on
            let high = random.flag() || place == 7 && random.percent(50);
            inputs.0.push(clock);
            inputs.1.push(pin.code(Level::from(high)));
        }
        if random.percent(2) {
            let released = clock + random.between(1, 40);
            inputs.0.extend([clock, released]);
            inputs.1.extend([Pin::RES.code(Level::Low), Pin::RES.code(Level::High)]);
            clock = released;
        }
        clock += random.pick(&[1, 2, 7, 20, 100, 500, 3_000]) + random.below(20);
    }
    inputs
}
