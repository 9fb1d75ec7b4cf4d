//! A run's position over time, thinned to a picture's columns: a curve has a few points for each column of pixels,
//! however many steps there are.
use crate::failure::Failure;
use crate::steps::Step;

/// The time that is shown, in seconds, and its columns.
#[derive(Clone, Copy, Debug)]
pub struct Window {
    pub from: f64,
    pub to: f64,
    pub columns: u32,
}

/// The steps of one column: the first one's time, and the lowest, highest and last position.
#[derive(Clone, Copy, PartialEq, Debug)]
pub struct Column {
    place: u64,
    pub time: f64,
    pub low: i64,
    pub high: i64,
    pub last: i64,
}

/// A curve: the position where it begins, then its columns.
#[derive(PartialEq, Debug)]
pub struct Curve {
    pub start: i64,
    /// The seconds to which it is known.
    pub end: f64,
    pub columns: Vec<Column>,
}

impl Curve {
    /// The curve of a list of steps, known to `end` seconds.
    pub fn thinned(
        steps: impl Iterator<Item = Result<Step, Failure>>,
        rate: u32,
        end: f64,
        window: Window,
    ) -> Result<Curve, Failure> {
        let mut curve = Curve { start: 0, end: end.min(window.to), columns: Vec::new() };
        for step in steps {
            let Step { clock, position } = step?;
            let time = clock as f64 / f64::from(rate);
            if time < window.from {
                curve.start = position;
            } else if time <= window.to {
                curve.add(time, position, window);
            }
        }
        Ok(curve)
    }

    fn add(&mut self, time: f64, position: i64, window: Window) {
        let part = (time - window.from) / (window.to - window.from);
        let place = (part * f64::from(window.columns)) as u64;
        match self.columns.last_mut() {
            Some(column) if column.place == place => {
                column.low = column.low.min(position);
                column.high = column.high.max(position);
                column.last = position;
            }
            _ => self.columns.push(Column { place, time, low: position, high: position, last: position }),
        }
    }

    /// The lowest and the highest position.
    pub fn range(&self) -> (i64, i64) {
        let low = self.columns.iter().map(|column| column.low).min().unwrap_or(self.start);
        let high = self.columns.iter().map(|column| column.high).max().unwrap_or(self.start);
        (low.min(self.start), high.max(self.start))
    }
}

#[cfg(test)]
mod tests {
    use super::*;

    fn thinned(steps: &[(u64, i64)], window: Window) -> Curve {
        let steps = steps.iter().map(|(clock, position)| Ok(Step { clock: *clock, position: *position }));
        Curve::thinned(steps, 10, 100.0, window).unwrap()
    }

    #[test]
    fn few_steps_stay_as_they_are() {
        let curve = thinned(&[(100, 1), (200, 2)], Window { from: 0.0, to: 100.0, columns: 100 });
        let columns: Vec<(f64, i64)> = curve.columns.iter().map(|column| (column.time, column.last)).collect();
        assert_eq!((columns, curve.start, curve.range()), (vec![(10.0, 1), (20.0, 2)], 0, (0, 2)));
    }

    #[test]
    fn many_steps_are_a_column_with_its_extremes() {
        let steps: Vec<(u64, i64)> = (0..1_000).map(|i| (i, if i == 555 { 900 } else { -(i as i64 % 7) })).collect();
        let curve = thinned(&steps, Window { from: 0.0, to: 100.0, columns: 10 });
        assert_eq!((curve.columns.len(), curve.range()), (10, (-6, 900)));
        assert_eq!((curve.columns[5].low, curve.columns[5].high, curve.columns[5].last), (-6, 900, -4));
    }

    #[test]
    fn a_window_begins_at_the_position_reached() {
        let curve = thinned(&[(100, 1), (200, 2), (300, 3), (400, 4)], Window { from: 15.0, to: 35.0, columns: 100 });
        assert_eq!((curve.start, curve.range(), curve.columns.len(), curve.end), (1, (1, 3), 2, 35.0));
    }
}
