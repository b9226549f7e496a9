//! What was seen: the numbers of each call, the causes of refused books, and calls at the limits of document 01.

use model::Record;
use model::bytes::u16_at;

use crate::call::{Answer, Call, Kind};
use crate::causes::{CAUSES, Cause, cause};

/// From so many calls on, what has to be seen and wasn't is a failure.
pub const ENOUGH: u64 = 20_000;

/// Call, size of what it is about, and the number that a call of that size must have been seen with.
pub const SIZES: [(Kind, usize, u8); 28] = [
    (Kind::Load, 7, 40),
    (Kind::Load, 12_232, 0),
    (Kind::Load, 12_233, 40),
    (Kind::Request, 20, 20),
    (Kind::Request, 21, 0),
    (Kind::Request, 276, 0),
    (Kind::Request, 277, 20),
    (Kind::Proof, 31, 25),
    (Kind::Proof, 33, 25),
    (Kind::Command, 95, 1),
    (Kind::Command, 96, 0),
    (Kind::Command, 16_480, 0),
    (Kind::Command, 16_481, 2),
    (Kind::Reply, 0, 0),
    (Kind::Reply, 12, 0),
    (Kind::Reply, 13, 0),
    (Kind::Reply, 16_384, 0),
    (Kind::Reply, 16_385, 30),
    (Kind::Narrow, 49, 28),
    (Kind::Narrow, 51, 28),
    (Kind::Seal, 0, 0),
    (Kind::Seal, 1, 0),
    (Kind::Seal, 16_384, 0),
    (Kind::Seal, 16_385, 30),
    (Kind::Open, 31, 1),
    (Kind::Open, 32, 0),
    (Kind::Open, 16_416, 0),
    (Kind::Open, 16_417, 2),
];

/// What a command's numbers have to reach.
const ENDS: [&str; 2] = ["number 65535 accepted", "12 after number 65535"];

pub struct Tally {
    pub calls: u64,
    numbers: [[u64; 256]; Kind::ALL.len()],
    causes: [u64; CAUSES.len()],
    sizes: [u64; SIZES.len()],
    ends: [u64; ENDS.len()],
}

impl Tally {
    pub fn new() -> Tally {
        Tally { calls: 0, numbers: [[0; 256]; Kind::ALL.len()], causes: [0; CAUSES.len()], sizes: [0; SIZES.len()], ends: [0; ENDS.len()] }
    }

    /// Counts a call, the records before it, and its answer.
    pub fn count(&mut self, call: &Call, before: &[Record], answer: &Answer) {
        let (kind, number) = (call.kind(), answer.number);
        self.calls += 1;
        self.numbers[kind as usize][usize::from(number)] += 1;
        if let Some(place) = SIZES.iter().position(|&size| size == (kind, call.size(), number)) {
            self.sizes[place] += 1;
        }
        match call {
            Call::Load { book } => self.count_cause(cause(book, number, answer.offset)),
            Call::Command { packet } => self.count_ends(u16_at(packet, 0), before, answer),
            _ => {}
        }
    }

    fn count_cause(&mut self, found: Option<Cause>) {
        if let Some(place) = CAUSES.iter().position(|(cause, ..)| Some(*cause) == found) {
            self.causes[place] += 1;
        }
    }

    fn count_ends(&mut self, client: u16, before: &[Record], answer: &Answer) {
        let host = usize::from(client).wrapping_sub(1);
        let at_end = matches!(before.get(host), Some(Record::Open { last: 65_535, .. }));
        self.ends[0] += u64::from(answer.number == 0 && answer.order.sequence == 65_535);
        self.ends[1] += u64::from(answer.number == 12 && at_end);
    }

    fn times(&self, kind: Kind, number: u8) -> u64 {
        self.numbers[kind as usize][usize::from(number)]
    }

    /// The refusal of that call that was seen least, but 39.
    pub fn least_refusal(&self, kind: Kind) -> Option<u8> {
        kind.order().iter().copied().filter(|&number| number != 39).min_by_key(|&number| self.times(kind, number))
    }

    pub fn least_cause(&self) -> Cause {
        let least = (0..CAUSES.len()).min_by_key(|&place| self.causes[place]);
        CAUSES[least.unwrap_or(0)].0
    }

    /// The size of that call that was seen least with its number.
    pub fn least_size(&self, kind: Kind) -> Option<(usize, u8)> {
        let least = (0..SIZES.len()).filter(|&place| SIZES[place].0 == kind).min_by_key(|&place| self.sizes[place])?;
        Some((SIZES[least].1, SIZES[least].2))
    }

    /// All that has to be seen, each with how often it was.
    fn wanted(&self) -> Vec<(String, u64)> {
        let number = |kind: Kind, number: u8| (format!("{} with {number}", kind.name()), self.times(kind, number));
        let mut wanted: Vec<(String, u64)> = Kind::ALL.iter().map(|&kind| number(kind, 0)).collect();
        wanted.extend(Kind::ALL.iter().flat_map(|&kind| kind.order().iter().map(move |&refusal| number(kind, refusal))));
        wanted.extend(CAUSES.iter().zip(self.causes).map(|(&(_, number, words), times)| (format!("load with {number} {words}"), times)));
        wanted.extend(SIZES.iter().zip(self.sizes).map(|(&size, times)| (sized(size), times)));
        wanted.extend(ENDS.iter().zip(self.ends).map(|(words, times)| (format!("command with {words}"), times)));
        wanted
    }

    pub fn unseen(&self) -> Vec<String> {
        self.wanted().into_iter().filter(|&(_, times)| times == 0).map(|(what, _)| what).collect()
    }

    /// Numbers that a call gave and that document 01 doesn't list for it.
    pub fn unlisted(&self) -> Vec<String> {
        let every = Kind::ALL.into_iter().flat_map(|kind| (1..=u8::MAX).map(move |number| (kind, number)));
        let given = every.filter(|&(kind, number)| self.times(kind, number) != 0 && !kind.order().contains(&number));
        given.map(|(kind, number)| format!("{} with {number}", kind.name())).collect()
    }

    pub fn table(&self) -> Vec<String> {
        let mut lines = vec!["call     accepted  refused, in document 01's order: number x times".to_string()];
        lines.extend(Kind::ALL.iter().map(|&kind| {
            let refused: Vec<String> = kind.order().iter().map(|&number| format!("{number}x{}", self.times(kind, number))).collect();
            format!("{:<8} {:>8}  {}", kind.name(), self.times(kind, 0), refused.join(" ")).trim_end().to_string()
        }));
        lines.push("books refused, by the place of the fault".to_string());
        lines.extend(Kind::Load.order().iter().map(|&number| format!("{number:<8} {}", self.places(number))));
        lines.push("bytes handed in, at the limits: size and number x times".to_string());
        lines.extend(
            Kind::ALL
                .iter()
                .map(|&kind| (kind, self.limits(kind)))
                .filter(|(_, limits)| !limits.is_empty())
                .map(|(kind, limits)| format!("{:<8} {limits}", kind.name())),
        );
        lines.extend(ENDS.iter().zip(self.ends).map(|(words, times)| format!("command with {words} x{times}")));
        lines
    }

    /// The causes of that number, each with its place and how often it was seen.
    fn places(&self, number: u8) -> String {
        let causes = CAUSES.iter().zip(self.causes).filter(|((_, of, _), _)| *of == number);
        let words: Vec<String> = causes.map(|((_, _, words), times)| format!("{words} x{times}")).collect();
        words.join(", ")
    }

    fn limits(&self, kind: Kind) -> String {
        let sizes = SIZES.iter().zip(self.sizes).filter(|((of, ..), _)| *of == kind);
        let words: Vec<String> = sizes.map(|((_, size, number), times)| format!("{size}:{number}x{times}")).collect();
        words.join(" ")
    }
}

fn sized((kind, size, number): (Kind, usize, u8)) -> String {
    format!("{} of {size} with {number}", kind.name())
}

#[cfg(test)]
mod tests {
    use super::*;

    /// Nothing compared is no success: every number of every call would be missing.
    #[test]
    fn nothing_seen_is_noticed() {
        let numbers: usize = Kind::ALL.iter().map(|kind| 1 + kind.order().len()).sum();
        assert_eq!(Tally::new().unseen().len(), numbers + CAUSES.len() + SIZES.len() + ENDS.len());
    }

    #[test]
    fn a_number_of_another_call_is_noticed() {
        let mut tally = Tally::new();
        tally.count(&Call::Close { host: 1 }, &[], &Answer { number: 4, ..Answer::default() });
        assert!(tally.unlisted().is_empty());
        tally.count(&Call::Close { host: 1 }, &[], &Answer { number: 6, ..Answer::default() });
        assert_eq!(tally.unlisted(), ["close with 6"]);
    }
}
