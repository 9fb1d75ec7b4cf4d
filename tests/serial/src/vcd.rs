//! A value change dump of some pins, a clock being a microsecond.

use r6501q::{Level, Pin, Record};

/// What stands for a pin in the dump.
const MARKS: [char; 2] = ['!', '%'];

/// At most two pins from clock 0, where they are high, to an end; a line for each change.
pub fn of(pins: &[Pin], records: &[Record], end: u32) -> String {
    let marked: Vec<(Pin, char)> = pins.iter().copied().zip(MARKS).collect();
    let mut text = String::from("$timescale 1 us $end\n$scope module r6501q $end\n");
    for (pin, mark) in &marked {
        text += &format!("$var wire 1 {mark} {pin} $end\n");
    }
    text += "$upscope $end\n$enddefinitions $end\n#0\n";
    for (_, mark) in &marked {
        text += &format!("1{mark}\n");
    }
    let mut last = vec![Level::High; marked.len()];
    for record in records {
        let levels: Vec<Level> = pins.iter().map(|&pin| record.level(pin).expect("a port pin")).collect();
        if levels != last {
            text += &format!("#{}\n", record.clock);
        }
        for i in (0..marked.len()).filter(|&i| levels[i] != last[i]) {
            text += &format!("{}{}\n", u8::from(levels[i] == Level::High), marked[i].1);
        }
        last = levels;
    }
    text + &format!("#{end}\n")
}
