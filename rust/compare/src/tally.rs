//! Counts of the answers that came up, and how often each has to.

use std::collections::BTreeMap;

#[derive(Clone, Copy, PartialEq, Eq, PartialOrd, Ord, Debug)]
pub enum Call {
    Book,
    Constraint,
    Text,
    Derivation,
    Trace,
    ToTrace,
    ToDerivation,
    Model,
}

/// Things at the limits of size, and shapes of traces that are easily mistaken.
#[derive(Clone, Copy, PartialEq, Eq, PartialOrd, Ord, Debug)]
pub enum Mark {
    LongestBookAccepted,
    BookTooLong,
    LongestDerivationAccepted,
    LongestTraceAccepted,
    LongestTraceWritten,
    ListTooLong,
    MillionExamined,
    MillionthBroken,
    BodilessLaterAccepted,
    LoosePlaceRefused,
    StepsSkipped,
}

/// For each call the numbers that it can answer with. For `Constraint` 0 is a part that is there and 1 an empty one.
const ANSWERS: [(Call, &[u32]); 8] = [
    (Call::Book, &[0, 1, 2, 3, 4, 5, 6, 7, 8]),
    (Call::Constraint, &[0, 1]),
    (Call::Text, &[0, 1, 2, 3, 4, 5, 6, 7, 8, 9]),
    (Call::Derivation, &[0, 1, 2, 3, 4, 5, 6, 7, 8, 10, 11, 12, 13, 14, 15, 16, 17]),
    (Call::Trace, &[0, 1, 2, 3, 4, 5, 6, 7, 8, 10, 11, 12, 13, 14, 15, 16, 17, 18, 19]),
    (Call::ToTrace, &[0, 1, 2, 3, 4, 5, 6, 7, 8, 9, 10, 11, 12, 13, 14, 15, 16, 17, 20]),
    (Call::ToDerivation, &[0, 1, 2, 3, 4, 5, 6, 7, 8, 9, 10, 11, 12, 13, 14, 15, 16, 17, 18, 19]),
    (Call::Model, &[0, 1, 2, 3, 4, 5, 6, 7, 8, 21, 22, 23, 24, 25]),
];

/// How often each answer of each call has to come up in a run of full length.
const FLOOR: u64 = 50;

/// How often each mark has to; the first eight need large inputs.
const MARKS: [(Mark, u64); 11] = [
    (Mark::LongestBookAccepted, 5),
    (Mark::BookTooLong, 5),
    (Mark::LongestDerivationAccepted, 5),
    (Mark::LongestTraceAccepted, 5),
    (Mark::LongestTraceWritten, 5),
    (Mark::ListTooLong, 5),
    (Mark::MillionExamined, 5),
    (Mark::MillionthBroken, 5),
    (Mark::BodilessLaterAccepted, FLOOR),
    (Mark::LoosePlaceRefused, FLOOR),
    (Mark::StepsSkipped, FLOOR),
];

#[derive(Default)]
pub struct Tally {
    answers: BTreeMap<(Call, u32), u64>,
    marks: BTreeMap<Mark, u64>,
}

impl Tally {
    pub fn answer(&mut self, call: Call, number: u32) {
        *self.answers.entry((call, number)).or_default() += 1;
    }

    pub fn mark(&mut self, mark: Mark, seen: bool) {
        *self.marks.entry(mark).or_default() += u64::from(seen);
    }

    fn count(&self, call: Call, number: u32) -> u64 {
        self.answers.get(&(call, number)).copied().unwrap_or(0)
    }

    pub fn print(&self) {
        for (call, _) in ANSWERS {
            let counts = self.answers.iter().filter(|((of, _), _)| *of == call);
            let line: Vec<String> = counts.map(|((_, number), count)| format!("{number}:{count}")).collect();
            println!("{:<13} {}", format!("{call:?}"), line.join(" "));
        }
        for (mark, count) in &self.marks {
            println!("{:<26} {count}", format!("{mark:?}"));
        }
    }

    /// What came up too seldom, and answers that a call cannot give.
    pub fn faults(&self) -> Vec<String> {
        let mut faults = Vec::new();
        for (call, numbers) in ANSWERS {
            for &number in numbers {
                let count = self.count(call, number);
                if count < FLOOR {
                    faults.push(format!("{call:?} answered {number} only {count} times, not {FLOOR}"));
                }
            }
        }
        for (mark, floor) in MARKS {
            let count = self.marks.get(&mark).copied().unwrap_or(0);
            if count < floor {
                faults.push(format!("{mark:?} came up only {count} times, not {floor}"));
            }
        }
        let stray = |(call, number): &&(Call, u32)| !ANSWERS.iter().any(|(of, numbers)| of == call && numbers.contains(number));
        faults.extend(
            self.answers.keys().filter(stray).map(|(call, number)| format!("{call:?} answered {number}, which it cannot")),
        );
        faults
    }
}

#[cfg(test)]
mod tests {
    use super::*;

    #[test]
    fn what_comes_up_too_seldom_is_a_fault() {
        let mut tally = Tally::default();
        let all = tally.faults().len();
        for _ in 0..FLOOR - 1 {
            tally.answer(Call::Model, 24);
        }
        assert_eq!(tally.faults().len(), all);
        tally.answer(Call::Model, 24);
        assert_eq!(tally.faults().len(), all - 1);
        tally.answer(Call::Model, 9);
        assert_eq!(tally.faults().len(), all);
    }
}
