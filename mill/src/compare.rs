//! Two lists of steps beside each other.
use crate::steps::Step;

/// How the second list differs from the first.
#[derive(Clone, Copy, PartialEq, Eq, Debug)]
pub struct Comparison {
    /// The index of the first step that differs: another position, a clock further off than is allowed, or a step that
    /// one list alone has.
    pub first: Option<usize>,
    /// The largest distance in clocks between steps of one index, and that index.
    pub worst_clocks: Option<(u64, usize)>,
    /// The largest distance between the positions at one time, and the first clock that has it.
    pub worst_place: Option<(u64, u64)>,
}

/// Compares two lists, each in order. Steps of one index may be so many clocks apart.
pub fn compared(first: &[Step], second: &[Step], clocks: u64) -> Comparison {
    let differ = |(a, b): (&Step, &Step)| a.position != b.position || a.clock.abs_diff(b.clock) > clocks;
    let shorter = first.len().min(second.len());
    let rest = (first.len() != second.len()).then_some(shorter);
    Comparison {
        first: first.iter().zip(second).position(differ).or(rest),
        worst_clocks: worst(first.iter().zip(second).map(|(a, b)| a.clock.abs_diff(b.clock)).zip(0..)),
        worst_place: worst(places(first, second)),
    }
}

/// The largest distance above 0, and where it stands first.
fn worst<T>(distances: impl Iterator<Item = (u64, T)>) -> Option<(u64, T)> {
    let mut worst: Option<(u64, T)> = None;
    for (distance, place) in distances {
        if distance > worst.as_ref().map_or(0, |(known, _)| *known) {
            worst = Some((distance, place));
        }
    }
    worst
}

/// The distance of the positions behind each clock that has a step, with that clock.
fn places<'a>(first: &'a [Step], second: &'a [Step]) -> impl Iterator<Item = (u64, u64)> + 'a {
    let (mut a, mut b) = (first.iter().peekable(), second.iter().peekable());
    let mut positions = (0i64, 0i64);
    std::iter::from_fn(move || {
        let clock = match (a.peek(), b.peek()) {
            (Some(a), Some(b)) => a.clock.min(b.clock),
            (Some(step), None) | (None, Some(step)) => step.clock,
            (None, None) => return None,
        };
        if let Some(step) = a.next_if(|step| step.clock == clock) {
            positions.0 = step.position;
        }
        if let Some(step) = b.next_if(|step| step.clock == clock) {
            positions.1 = step.position;
        }
        Some((positions.0.abs_diff(positions.1), clock))
    })
}

#[cfg(test)]
mod tests {
    use super::*;

    fn steps(list: &[(u64, i64)]) -> Vec<Step> {
        list.iter().map(|(clock, position)| Step { clock: *clock, position: *position }).collect()
    }

    #[test]
    fn lists_that_are_alike() {
        let a = steps(&[(10, 1), (20, 2), (30, 1)]);
        assert_eq!(compared(&a, &a, 0), Comparison { first: None, worst_clocks: None, worst_place: None });
        assert_eq!(compared(&[], &[], 0).first, None);
        let b = steps(&[(10, 1), (22, 2), (29, 1)]);
        let late = compared(&a, &b, 2);
        assert_eq!((late.first, late.worst_clocks, late.worst_place), (None, Some((2, 1)), Some((1, 20))));
        assert_eq!(compared(&a, &b, 1).first, Some(1));
    }

    #[test]
    fn steps_too_many_and_steps_missing() {
        let a = steps(&[(10, 1), (20, 2)]);
        let b = steps(&[(10, 1), (20, 2), (30, 3), (40, 4)]);
        let more = compared(&a, &b, 0);
        assert_eq!((more.first, more.worst_clocks, more.worst_place), (Some(2), None, Some((2, 40))));
        assert_eq!(compared(&b, &a, 0).first, Some(2));
    }

    #[test]
    fn another_position_differs_however_many_clocks_are_allowed() {
        let (a, b) = (steps(&[(10, 1), (20, 2)]), steps(&[(10, 1), (20, 0)]));
        let other = compared(&a, &b, u64::MAX);
        assert_eq!((other.first, other.worst_place), (Some(1), Some((2, 20))));
    }
}
