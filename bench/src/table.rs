// Tables as Markdown has them, in columns of even width.

pub struct Table {
    rows: Vec<Vec<String>>,
}

impl Table {
    pub fn new(head: &[&str]) -> Table {
        let head = head.iter().map(|cell| cell.to_string()).collect();
        Table { rows: vec![head] }
    }

    pub fn row(&mut self, cells: &[String]) {
        assert_eq!(cells.len(), self.rows[0].len());
        self.rows.push(cells.to_vec());
    }

    // The first column goes to the left, the figures to the right.
    pub fn print(&self) {
        let columns = self.rows[0].len();
        let width = |column: usize| self.rows.iter().map(|row| row[column].chars().count()).max();
        let widths: Vec<usize> = (0..columns).map(|c| width(c).unwrap_or(0)).collect();
        for (number, row) in self.rows.iter().enumerate() {
            let mut line = format!("| {:<1$} |", row[0], widths[0]);
            for (cell, width) in row.iter().zip(&widths).skip(1) {
                line += &format!(" {cell:>width$} |");
            }
            println!("{line}");
            if number == 0 {
                println!("|---|{}", "---:|".repeat(columns - 1));
            }
        }
        println!();
    }
}

// A number with its thousands marked.
pub fn count(number: u64) -> String {
    let digits = number.to_string();
    let mut text = String::new();
    for (i, digit) in digits.chars().enumerate() {
        if i > 0 && (digits.len() - i).is_multiple_of(3) {
            text.push(',');
        }
        text.push(digit);
    }
    text
}

// Clocks per second, to four figures.
pub fn speed(clocks: f64, seconds: f64) -> String {
    let speed = clocks / seconds;
    let step = 10f64.powi((speed.log10().floor() as i32 - 3).max(0));
    count(((speed / step).round() * step) as u64)
}

// A time from nanoseconds to milliseconds.
pub fn time(seconds: f64) -> String {
    let nanoseconds = seconds * 1e9;
    match nanoseconds.abs() {
        n if n < 1e3 => format!("{nanoseconds:.1} ns"),
        n if n < 1e6 => format!("{:.1} µs", nanoseconds / 1e3),
        _ => format!("{:.2} ms", nanoseconds / 1e6),
    }
}
