//! Source document 001, Table 6-1, "Counter A Values for Baud Rate Selection", held against the answers.
use crate::judge::Figures;
use r6501q::{latch, Latch};

/// "Transmitter and receiver errors of 1.5% or less are acceptable."
const ACCEPTABLE: u32 = 15;

/// A row for one clock rate: the standard rate, the latch value, the actual rate in hundredths, and the clock rate
/// needed to get the standard rate.
struct Row(u32, u16, u64, u32);

const AT_1_MHZ: [Row; 12] = [
    Row(50, 0x04E1, 50_00, 1_000_000),
    Row(75, 0x0340, 75_03, 1_000_000),
    Row(110, 0x0237, 110_04, 1_000_000),
    Row(150, 0x01A0, 149_88, 1_000_000),
    Row(300, 0x00CF, 300_48, 1_000_000),
    Row(600, 0x0067, 600_96, 1_000_000),
    Row(1200, 0x0033, 1201_92, 1_000_000),
    Row(2400, 0x0019, 2403_85, 1_000_000),
    Row(3600, 0x0010, 3676_47, 979_200),
    Row(4800, 0x000C, 4807_69, 1_000_000),
    Row(7200, 0x0008, 6944_44, 1_036_800),
    Row(9600, 0x0006, 8928_57, 1_075_200),
];

const AT_2_MHZ: [Row; 12] = [
    Row(50, 0x09C3, 50_00, 2_000_000),
    Row(75, 0x0682, 74_99, 2_000_000),
    Row(110, 0x046F, 110_04, 2_000_000),
    Row(150, 0x0340, 150_06, 2_000_000),
    Row(300, 0x01A0, 299_76, 2_000_000),
    Row(600, 0x00CF, 600_96, 2_000_000),
    Row(1200, 0x0067, 1201_92, 2_000_000),
    Row(2400, 0x0033, 2403_85, 2_000_000),
    Row(3600, 0x0021, 3676_47, 1_958_400),
    Row(4800, 0x0019, 4807_69, 2_000_000),
    Row(7200, 0x0010, 7352_94, 1_958_400),
    Row(9600, 0x000C, 9615_38, 2_000_000),
];

/// The one row whose value is not the nearest: at 2 MHz 3600 bits a second are nearer to latch 0022h, 0.8% off, than to
/// the table's 0021h, 2.1% off. So that a latch value is acceptable at 2 MHz, and the table gives another clock rate.
fn nearer_elsewhere(clock_rate: u32, bit_rate: u32) -> bool {
    (clock_rate, bit_rate) == (2_000_000, 3600)
}

/// What is wrong with a row, or nothing. `clock_rate` is that of its column.
fn fault(clock_rate: u32, row: &Row) -> Option<&'static str> {
    let Row(bit_rate, value, actual, needed) = *row;
    let made = 100 * u64::from(clock_rate);
    let divisor = 16 * (u64::from(value) + 1);
    if (2 * made + divisor) / (2 * divisor) != actual {
        return Some("the actual rate is not that of the value");
    }
    let at = |clock_rate, tolerance| Figures { clock_rate, bit_rate, tolerance };
    let asked = |figures: Figures| latch(figures.clock_rate, figures.bit_rate, figures.tolerance);
    let least = (0..=1_000).find(|tolerance| at(clock_rate, *tolerance).fits(value)).expect("a thousand is enough");

    // With the tolerance that the table's value needs the answer is the smallest value that fits, and the table's fits.
    let figures = at(clock_rate, least);
    let Some(smallest) = figures.fitting().next() else {
        return Some("no value fits with the tolerance that the value needs");
    };
    if asked(figures) != Latch::Fits(smallest) || value < smallest {
        return Some("not the smallest value that fits");
    }

    // The table's own limit: within it a value is found, past it none, but for one row.
    let acceptable = matches!(asked(at(clock_rate, ACCEPTABLE)), Latch::Fits(_));
    let expected = least <= ACCEPTABLE || nearer_elsewhere(clock_rate, bit_rate);
    if acceptable != expected || (needed == clock_rate) != (least <= ACCEPTABLE) {
        return Some("not what the table says of 1.5%");
    }

    // With the clock rate that the table asks for instead, the value is exact.
    if needed != clock_rate && asked(at(needed, 0)) != Latch::Fits(value) {
        return Some("not the table's value at the clock rate needed");
    }
    None
}

/// Compares every row; the number of rows, and of those that are wrong.
pub fn compare() -> (usize, usize) {
    let (mut rows, mut wrong) = (0, 0);
    for (clock_rate, table) in [(1_000_000, AT_1_MHZ), (2_000_000, AT_2_MHZ)] {
        for row in &table {
            rows += 1;
            if let Some(fault) = fault(clock_rate, row) {
                println!("Table 6-1, {} at {clock_rate}: {fault}", row.0);
                wrong += 1;
            }
        }
    }
    (rows, wrong)
}
