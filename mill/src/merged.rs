//! Several input lists as one.
use crate::input::Input;
use std::iter::Peekable;

/// Two lists that are each in order, as one that is. Where both have an input for one pin on one clock, the first
/// list's comes first.
pub struct Merged<A: Iterator<Item = Input>, B: Iterator<Item = Input>> {
    first: Peekable<A>,
    second: Peekable<B>,
}

impl<A: Iterator<Item = Input>, B: Iterator<Item = Input>> Merged<A, B> {
    pub fn of(first: A, second: B) -> Merged<A, B> {
        Merged { first: first.peekable(), second: second.peekable() }
    }
}

impl<A: Iterator<Item = Input>, B: Iterator<Item = Input>> Iterator for Merged<A, B> {
    type Item = Input;

    fn next(&mut self) -> Option<Input> {
        match (self.first.peek(), self.second.peek()) {
            (Some(first), Some(second)) if second.place() < first.place() => self.second.next(),
            (Some(_), _) => self.first.next(),
            (None, _) => self.second.next(),
        }
    }
}

#[cfg(test)]
mod tests {
    use super::*;
    use crate::input::list;

    #[test]
    fn inputs_come_by_clock_and_then_by_pin() {
        let first = list("1,PA7,0\n5,PA7,1").unwrap();
        let second = list("1,RES,1\n4,PB0,0\n5,PA0,0\n9,PA0,1").unwrap();
        let merged: Vec<String> =
            Merged::of(first.into_iter(), second.into_iter()).map(|input| input.fields().join(",")).collect();
        assert_eq!(merged, ["1,PA7,0", "1,RES,1", "4,PB0,0", "5,PA0,0", "5,PA7,1", "9,PA0,1"]);
        assert!(list(&merged.join("\n")).is_ok());
    }
}
