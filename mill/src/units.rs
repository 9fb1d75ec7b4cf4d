//! Rates, times, tolerances and addresses as they are written, and numbers as they are shown.
use r6501q::{HIGHEST_RATE, HIGHEST_TOLERANCE};

/// A decimal number without a sign: `digits` / 10^`decimals`, exactly.
#[derive(Clone, Copy, PartialEq, Eq, Debug)]
struct Decimal {
    digits: u128,
    decimals: u32,
}

/// The most digits that a number may have, so that products of it fit 128 bits.
const MOST_DIGITS: usize = 15;

impl Decimal {
    fn parsed(text: &str) -> Option<Decimal> {
        let (whole, part) = text.split_once('.').unwrap_or((text, ""));
        let digits: String = whole.chars().chain(part.chars()).collect();
        let fits = !whole.is_empty() && digits.len() <= MOST_DIGITS && digits.bytes().all(|byte| byte.is_ascii_digit());
        let wrong_point = text.contains('.') && part.is_empty();
        if !fits || wrong_point {
            return None;
        }
        Some(Decimal { digits: digits.parse().ok()?, decimals: part.len() as u32 })
    }

    /// The number times a factor, if that is a whole number.
    fn whole(self, factor: u128) -> Option<u128> {
        let (product, divisor) = (self.digits * factor, 10u128.pow(self.decimals));
        (product % divisor == 0).then_some(product / divisor)
    }

    /// The number times a fraction, to the nearest whole number.
    fn nearest(self, numerator: u128, denominator: u128) -> u128 {
        rounded(self.digits * numerator, 10u128.pow(self.decimals) * denominator)
    }
}

/// A quotient to the nearest whole number, halves up.
pub fn rounded(numerator: u128, denominator: u128) -> u128 {
    (numerator + denominator / 2) / denominator
}

/// A number and the letters behind it.
fn split(text: &str) -> (&str, &str) {
    let end = text.find(|c: char| !c.is_ascii_digit() && c != '.').unwrap_or(text.len());
    (&text[..end], text[end..].trim_start())
}

/// Clocks a second: `1MHz`, `921.6kHz`, `1000000`. A whole number of hertz up to 10 MHz.
pub fn rate(text: &str) -> Result<u32, String> {
    let (number, unit) = split(text);
    let factor = match unit {
        "" | "Hz" => 1,
        "kHz" => 1_000,
        "MHz" => 1_000_000,
        _ => return Err(format!("`{text}` is no clock rate, as 1MHz, 921.6kHz or 1000000")),
    };
    let hertz = Decimal::parsed(number).and_then(|number| number.whole(factor));
    let within = hertz.and_then(|hertz| u32::try_from(hertz).ok()).filter(|hertz| (1..=HIGHEST_RATE).contains(hertz));
    within.ok_or_else(|| format!("`{text}` is no clock rate: a whole number of hertz, 1 to {}", grouped(HIGHEST_RATE)))
}

/// Bits a second.
pub fn bit_rate(text: &str) -> Result<u32, String> {
    let within = text.parse().ok().filter(|rate| (1..=HIGHEST_RATE).contains(rate));
    within.ok_or_else(|| format!("`{text}` is no bit rate, 1 to {}", grouped(HIGHEST_RATE)))
}

/// What a time is, for helps.
pub const TIMES: &str = "TIME is as 30us, 2ms, 1.5s, 5min, 2h, or a number of clocks.";

/// A time as it is written: `2ms`, `1.5s`, `30us`, `5min`, `2h`, or a number of clocks.
#[derive(Clone, Copy, PartialEq, Eq, Debug)]
pub struct Time {
    number: Decimal,
    /// The unit in seconds, a fraction; none: clocks.
    unit: Option<(u128, u128)>,
}

impl Time {
    /// What is no time is said.
    pub fn parsed(text: &str) -> Result<Time, String> {
        let wrong = || format!("`{text}` is no time, as 30us, 2ms, 1.5s, 5min, 2h, or a number of clocks");
        let (number, unit) = split(text);
        let unit = match unit {
            "" => None,
            "us" => Some((1, 1_000_000)),
            "ms" => Some((1, 1_000)),
            "s" => Some((1, 1)),
            "min" => Some((60, 1)),
            "h" => Some((3_600, 1)),
            _ => return Err(wrong()),
        };
        Ok(Time { number: Decimal::parsed(number).ok_or_else(wrong)?, unit })
    }

    /// In clocks, to the nearest.
    pub fn clocks(self, rate: u32) -> Result<u64, String> {
        let (numerator, denominator) = self.unit.map_or((1, 1), |(over, under)| (over * u128::from(rate), under));
        let clocks = u64::try_from(self.number.nearest(numerator, denominator)).ok();
        let within = clocks.filter(|clocks| *clocks <= HIGHEST_TIME);
        within.ok_or_else(|| format!("a time is 0 to {} clocks", grouped(HIGHEST_TIME)))
    }
}

/// The highest time in clocks: sums of several stay below 64 bits.
pub const HIGHEST_TIME: u64 = 1 << 60;

/// A tolerance in thousandths: `2%`, `1.5%`.
pub fn tolerance(text: &str) -> Result<u32, String> {
    let number = text.strip_suffix('%').and_then(|number| Decimal::parsed(number.trim_end()));
    let thousandths = number.and_then(|number| number.whole(10)).and_then(|whole| u32::try_from(whole).ok());
    let within = thousandths.filter(|thousandths| *thousandths <= HIGHEST_TOLERANCE);
    within.ok_or_else(|| format!("`{text}` is no tolerance: percent with at most one decimal, 0% to 100%"))
}

/// An address in hexadecimal: `F000`, `F000h`, `0xF000` or `$F000`.
pub fn address(text: &str) -> Result<u16, String> {
    let digits = text.strip_prefix("0x").or_else(|| text.strip_prefix('$')).unwrap_or(text);
    let digits = digits.strip_suffix('h').unwrap_or(digits);
    let plain = !digits.is_empty() && digits.bytes().all(|byte| byte.is_ascii_hexdigit());
    let parsed = if plain { u16::from_str_radix(digits, 16).ok() } else { None };
    parsed.ok_or_else(|| format!("`{text}` is no address: hexadecimal, 0 to FFFF"))
}

/// A number with a comma before each three digits.
pub fn grouped(number: impl Into<u64>) -> String {
    let digits = number.into().to_string();
    let mut text = String::new();
    for (place, digit) in digits.chars().enumerate() {
        if place > 0 && (digits.len() - place) % 3 == 0 {
            text.push(',');
        }
        text.push(digit);
    }
    text
}

/// A clock in seconds, with decimals enough to tell one clock from the next.
pub fn seconds(clock: u64, rate: u32) -> String {
    let mut decimals = 0;
    while 10u128.pow(decimals) < u128::from(rate) {
        decimals += 1;
    }
    decimal(rounded(u128::from(clock) * 10u128.pow(decimals), u128::from(rate)), decimals)
}

/// A number of 10^-`decimals`, written out.
fn decimal(number: u128, decimals: u32) -> String {
    let unit = 10u128.pow(decimals);
    match decimals {
        0 => number.to_string(),
        _ => format!("{}.{:0width$}", number / unit, number % unit, width = decimals as usize),
    }
}

/// A quotient with two decimals.
pub fn hundredths(numerator: u128, denominator: u128) -> String {
    decimal(rounded(100 * numerator, denominator), 2)
}

#[cfg(test)]
mod tests {
    use super::*;

    #[test]
    fn rates_are_whole_numbers_of_hertz() {
        assert_eq!([rate("1MHz"), rate("1.8432MHz"), rate("921.6 kHz")], [Ok(1_000_000), Ok(1_843_200), Ok(921_600)]);
        assert_eq!([rate("2000000"), rate("10MHz")], [Ok(2_000_000), Ok(10_000_000)]);
        for text in ["", "0", "0MHz", "10.1MHz", "1.5Hz", "1GHz", "-1MHz", "1,000", "1.MHz", ".5MHz", "1e6"] {
            assert!(rate(text).is_err(), "{text}");
        }
        assert_eq!([bit_rate("9600"), bit_rate("1")], [Ok(9_600), Ok(1)]);
        assert!(bit_rate("0").is_err() && bit_rate("9600.5").is_err() && bit_rate("10000001").is_err());
    }

    #[test]
    fn times_are_clocks_to_the_nearest() {
        let time = |text: &str, rate: u32| Time::parsed(text).and_then(|time| time.clocks(rate));
        assert_eq!([time("2ms", 1_000_000), time("2000", 1), time("1.5s", 2)], [Ok(2_000), Ok(2_000), Ok(3)]);
        assert_eq!([time("30us", 1_075_200), time("2h", 1_000_000)], [Ok(32), Ok(7_200_000_000)]);
        assert_eq!(time("0.5min", 1_000_000), Ok(30_000_000));
        for text in ["", "ms", "2 m", "2sec", "1e3", "-1s", "99999999999999999999", "999999999999999h"] {
            assert!(time(text, 1_000_000).is_err(), "{text}");
        }
    }

    #[test]
    fn tolerances_are_thousandths() {
        assert_eq!([tolerance("2%"), tolerance("1.5%"), tolerance("0%")], [Ok(20), Ok(15), Ok(0)]);
        assert_eq!(tolerance("100%"), Ok(1_000));
        for text in ["2", "0.15%", "100.1%", "%", "-1%"] {
            assert!(tolerance(text).is_err(), "{text}");
        }
    }

    #[test]
    fn addresses_have_four_forms() {
        for text in ["F070", "F070h", "0xF070", "$F070", "f070"] {
            assert_eq!(address(text), Ok(0xF070));
        }
        for text in ["", "h", "10000", "+1", "F070H ", "G"] {
            assert!(address(text).is_err(), "{text}");
        }
    }

    #[test]
    fn numbers_are_shown_in_groups_and_times_to_the_clock() {
        assert_eq!([grouped(7u32), grouped(3_061u32), grouped(1_000_000u32)], ["7", "3,061", "1,000,000"]);
        assert_eq!([seconds(3_622, 1_000_000), seconds(1, 2_000_000)], ["0.003622", "0.0000005"]);
        assert_eq!([seconds(7, 1), seconds(7_200_000_000, 1_000_000)], ["7", "7200.000000"]);
        assert_eq!(hundredths(1_000_000, 9_600), "104.17");
    }
}
