//! Asks the implementations and compares all that the kit and the fast one give back with what the judge does.

use crate::cases::Case;
use crate::lists::Question;
use crate::tally::{Call, Mark, Tally};
use ruahmitz_fast as fast;
use ruahmitz_judge as judge;
use ruahmitz_kit as kit;
use std::fmt::{self, Debug, Display, Formatter};

/// Number and place.
type Reply = (u32, u64);

/// Who is held to the judge.
#[derive(Clone, Copy, PartialEq, Eq, Debug)]
pub enum Who {
    Kit,
    Fast,
}

pub struct Difference {
    pub who: Who,
    pub call: Call,
    pub about: String,
    pub told: String,
    pub due: String,
}

impl Display for Difference {
    fn fmt(&self, out: &mut Formatter) -> fmt::Result {
        let Difference { who, call, about, told, due } = self;
        write!(out, "{who:?} differs: {call:?} {about}\n    {:<6} {told}\n    judge: {due}", format!("{who:?}:").to_lowercase())
    }
}

#[derive(Default)]
pub struct Comparer {
    pub tally: Tally,
    pub differences: Vec<Difference>,
}

fn of_kit(answer: kit::Answer) -> Reply {
    (answer.number, answer.place)
}

fn of_judge(answer: judge::Answer) -> Reply {
    (answer.number, answer.place)
}

fn of_fast(answer: fast::Answer) -> Reply {
    (answer.number, answer.place)
}

/// A call that writes into a room, as each makes it; the fast one may not have it.
struct Writers<'a, T> {
    kit: Write<'a, T>,
    judge: Write<'a, T>,
    fast: Option<Write<'a, T>>,
}

type Write<'a, T> = &'a dyn Fn(&mut [T]) -> Reply;

/// So many numbers stand before and after a room, in the same pattern as in it.
const MARGIN: usize = 32;

/// The reply for a room of this size, and what is then in the room and around it.
fn written<T: Copy + From<u8>>(size: usize, write: Write<T>) -> (Reply, Vec<T>) {
    let mut room: Vec<T> = (0..size + 2 * MARGIN).map(|at| T::from((at % 251) as u8)).collect();
    let reply = write(&mut room[MARGIN..MARGIN + size]);
    (reply, room)
}

impl Comparer {
    /// Compares every call on the case; true if all agree.
    pub fn case(&mut self, case: &Case) -> bool {
        let before = self.differences.len();
        let book = &case.book;
        let (number, _) = self.reply(Call::Book, of_kit(kit::book(book)), of_judge(judge::book(book)), None);
        self.tally.mark(Mark::LongestBookAccepted, number == 0 && book.len() == 60_000);
        self.tally.mark(Mark::BookTooLong, book.len() == 60_001);
        self.constraints(case);
        let writers =
            Writers { kit: &|room| of_kit(kit::text(book, room)), judge: &|room| of_judge(judge::text(book, room)), fast: None };
        self.roomy(Call::Text, case.slack, &writers);
        self.derivation(book, &case.derivation, case.slack);
        self.trace(book, &case.trace, case.slack);
        self.model(case);
        self.differences.len() == before
    }

    fn same<T: PartialEq + Debug>(&mut self, who: Who, call: Call, about: &str, told: T, due: T) {
        if told != due {
            let (told, due) = (format!("{told:?}"), format!("{due:?}"));
            self.differences.push(Difference { who, call, about: about.to_string(), told, due });
        }
    }

    fn reply(&mut self, call: Call, kit: Reply, judge: Reply, fast: Option<Reply>) -> Reply {
        self.tally.answer(call, kit.0);
        self.same(Who::Kit, call, "", kit, judge);
        self.same(Who::Fast, call, "", fast.unwrap_or(judge), judge);
        judge
    }

    fn constraints(&mut self, case: &Case) {
        for &clause in &case.clauses {
            let (kit, judge) = (kit::constraint(&case.book, clause), judge::constraint(&case.book, clause));
            self.tally.answer(Call::Constraint, u32::from(kit.length == 0));
            let about = format!("clause {clause}");
            self.same(Who::Kit, Call::Constraint, &about, (kit.start, kit.length), (judge.start, judge.length));
        }
    }

    fn derivation(&mut self, book: &[u8], asked: &Question, slack: usize) {
        let Question { list, relation, values, .. } = asked;
        let kit = of_kit(kit::derivation(book, list, *relation, values));
        let judge = of_judge(judge::derivation(book, list, *relation, values));
        let fast = of_fast(fast::derivation(book, list, *relation, values));
        let (number, _) = self.reply(Call::Derivation, kit, judge, Some(fast));
        self.tally.mark(Mark::LongestDerivationAccepted, number == 0 && list.len() == 1_000_000);
        self.tally.mark(Mark::ListTooLong, number == 11 && list.len() == 1_000_001);
        let writers = Writers {
            kit: &|room| of_kit(kit::to_trace(book, list, *relation, values, room)),
            judge: &|room| of_judge(judge::to_trace(book, list, *relation, values, room)),
            fast: Some(&|room| of_fast(fast::to_trace(book, list, *relation, values, room))),
        };
        let (number, length) = self.roomy(Call::ToTrace, slack, &writers);
        self.tally.mark(Mark::LongestTraceWritten, number == 0 && length == 1_000_000);
        if number == 0 {
            self.there_and_back(book, asked, length as usize);
        }
    }

    /// The kit's trace of a derivation is a trace, and its derivation is the one that we had.
    fn there_and_back(&mut self, book: &[u8], asked: &Question, length: usize) {
        let Question { list, relation, values, .. } = asked;
        let mut trace = vec![0; length];
        let mut back = vec![0; list.len()];
        kit::to_trace(book, list, *relation, values, &mut trace);
        let accepted = of_kit(kit::trace(book, &trace, *relation, values));
        self.same(Who::Kit, Call::Trace, "of a written trace, against what is due", accepted, (0, 0));
        let written = of_kit(kit::to_derivation(book, &trace, *relation, values, &mut back));
        self.same(
            Who::Kit,
            Call::ToDerivation,
            "of a written trace, against what is due",
            (written, &back),
            ((0, list.len() as u64), list),
        );
    }

    fn trace(&mut self, book: &[u8], asked: &Question, slack: usize) {
        let Question { list, relation, values, notes } = asked;
        let kit = of_kit(kit::trace(book, list, *relation, values));
        let judge = of_judge(judge::trace(book, list, *relation, values));
        let fast = of_fast(fast::trace(book, list, *relation, values));
        let (number, _) = self.reply(Call::Trace, kit, judge, Some(fast));
        self.tally.mark(Mark::LongestTraceAccepted, number == 0 && list.len() == 1_000_000);
        self.tally.mark(Mark::BodilessLaterAccepted, number == 0 && notes.bodiless_later);
        self.tally.mark(Mark::LoosePlaceRefused, number == 19 && notes.loose_place);
        let writers = Writers {
            kit: &|room| of_kit(kit::to_derivation(book, list, *relation, values, room)),
            judge: &|room| of_judge(judge::to_derivation(book, list, *relation, values, room)),
            fast: Some(&|room| of_fast(fast::to_derivation(book, list, *relation, values, room))),
        };
        let (number, length) = self.roomy(Call::ToDerivation, slack, &writers);
        self.tally.mark(Mark::StepsSkipped, number == 0 && (length as usize) < notes.all_steps);
    }

    fn model(&mut self, case: &Case) {
        let kit = kit::model(&case.book, &case.model);
        let judge = judge::model(&case.book, &case.model);
        let fast = fast::model(&case.book, &case.model);
        self.tally.answer(Call::Model, kit.number);
        self.tally.mark(Mark::MillionExamined, judge.number == 0 && judge.count == 1_000_000);
        self.tally.mark(Mark::MillionthBroken, judge.number == 25 && judge.count == 1_000_000);
        let about = "number, place, count, clause, values";
        let due = (judge.number, judge.place, judge.count, judge.clause, judge.values);
        self.same(Who::Kit, Call::Model, about, (kit.number, kit.place, kit.count, kit.clause, kit.values), due);
        self.same(Who::Fast, Call::Model, about, (fast.number, fast.place, fast.count, fast.clause, fast.values), due);
    }

    /// Asks with an empty room, then with one that is too short by one, one that just suffices and a longer one. Gives the last reply.
    fn roomy<T: Copy + PartialEq + Debug + From<u8>>(&mut self, call: Call, slack: usize, writers: &Writers<T>) -> Reply {
        let (number, place) = self.in_room(call, 0, writers);
        if number != 9 {
            return self.in_room(call, slack, writers);
        }
        let needed = place as usize;
        self.in_room(call, needed - 1, writers);
        self.in_room(call, needed, writers);
        self.in_room(call, needed + slack, writers)
    }

    /// Asks with a room of this size.
    fn in_room<T: Copy + PartialEq + Debug + From<u8>>(&mut self, call: Call, size: usize, writers: &Writers<T>) -> Reply {
        let (kit, ours) = written(size, writers.kit);
        let (judge, due) = written(size, writers.judge);
        self.same_room(Who::Kit, call, &ours, &due);
        let fast = writers.fast.map(|write| {
            let (fast, theirs) = written(size, write);
            self.same_room(Who::Fast, call, &theirs, &due);
            fast
        });
        self.reply(call, kit, judge, fast)
    }

    fn same_room<T: Copy + PartialEq + Debug>(&mut self, who: Who, call: Call, told: &[T], due: &[T]) {
        if told != due {
            let at = told.iter().zip(due).take_while(|(a, b)| a == b).count();
            let about = format!("room of {}, number {}", due.len() - 2 * MARGIN, at as i64 - MARGIN as i64);
            self.same(who, call, &about, told[at], due[at]);
        }
    }
}

#[cfg(test)]
mod tests {
    use super::*;

    #[test]
    fn another_reply_is_a_difference() {
        let mut comparer = Comparer::default();
        comparer.reply(Call::Trace, (4, 40), (4, 40), Some((4, 40)));
        assert!(comparer.differences.is_empty());
        comparer.reply(Call::Trace, (4, 40), (4, 41), None);
        comparer.reply(Call::Trace, (4, 40), (4, 40), Some((5, 40)));
        let who: Vec<Who> = comparer.differences.iter().map(|difference| difference.who).collect();
        assert_eq!(who, [Who::Kit, Who::Fast]);
    }

    #[test]
    fn another_room_is_a_difference() {
        fn write(front: u8, room: &mut [u8]) -> Reply {
            room.get_mut(..2).map_or((9, 2), |part| {
                part.fill(front);
                (0, 2)
            })
        }
        let (seven, eight) = (|room: &mut [u8]| write(7, room), |room: &mut [u8]| write(8, room));
        let mut comparer = Comparer::default();
        comparer.roomy(Call::Text, 3, &Writers { kit: &seven, judge: &seven, fast: Some(&seven) });
        assert!(comparer.differences.is_empty());
        comparer.roomy(Call::Text, 3, &Writers { kit: &seven, judge: &eight, fast: Some(&eight) });
        assert!(comparer.differences.iter().map(|difference| difference.who).eq([Who::Kit; 2]));
        comparer.roomy(Call::Text, 3, &Writers { kit: &seven, judge: &seven, fast: Some(&eight) });
        assert!(comparer.differences[2..].iter().map(|difference| difference.who).eq([Who::Fast; 2]));
    }

    #[test]
    fn a_case_depends_on_seed_and_number_alone() {
        let (one, same, other) = (Case::make(3, 14), Case::make(3, 14), Case::make(3, 15));
        assert_eq!((&one.book, &one.trace.list), (&same.book, &same.trace.list));
        assert_ne!(one.book, other.book);
    }
}
