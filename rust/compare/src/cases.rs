//! A case: one input for every call of the kit.

use crate::draft::Draft;
use crate::lists::{self, Listing, Question, State};
use crate::random::Random;
use crate::{books, damage, limits, models};

/// One case in so many is at a limit of size.
const LIMITS: u64 = 400;

pub struct Case {
    pub book: Vec<u8>,
    /// Clause numbers to ask the constraint of.
    pub clauses: Vec<u64>,
    pub derivation: Question,
    pub trace: Question,
    pub model: Vec<u8>,
    /// How much longer than needed a room is.
    pub slack: usize,
}

impl Case {
    /// The case of this number.
    pub fn make(seed: u64, number: u64) -> Case {
        let mut random = Random::new(seed, number);
        let mut case = if number.is_multiple_of(LIMITS) {
            limits::draw(&mut random, (number / LIMITS) as usize)
        } else {
            ordinary(&mut random)
        };
        if random.chance(2) {
            std::mem::swap(&mut case.derivation, &mut case.trace);
        }
        case.slack = random.below(40);
        case
    }
}

fn ordinary(random: &mut Random) -> Case {
    let mut draft = books::draft(random);
    let derivation = derivation(random, &draft);
    let trace = trace(random, &draft);
    let model = models::draw(random, &draft);
    let clauses = clause_numbers(random, draft.clauses.len() as u64);
    if random.chance(8) {
        books::stretch(random, &mut draft);
    }
    let writer = draft.write();
    let book = if random.chance(30) { damage::book(random, writer) } else { writer.bytes };
    Case { book, clauses, derivation, trace, model, slack: 0 }
}

/// Two clauses and two numbers beyond the last.
pub fn clause_numbers(random: &mut Random, clauses: u64) -> Vec<u64> {
    let inside = random.number() % clauses.max(1);
    let beyond = random.pick(&[clauses + 1, 64, 255, inside + (1 << 8), inside + (1 << 32), 1 << 63, u64::MAX]);
    vec![inside, clauses.saturating_sub(1), clauses, beyond]
}

fn derivation(random: &mut Random, draft: &Draft) -> Question {
    let mut steps = lists::derive(random, draft);
    let (relation, values) = steps.last().map_or((draft.query, Vec::new()), |step| lists::head_fact(draft, step));
    let spoil = Spoil::draw(random);
    if spoil == Spoil::Steps || (steps.is_empty() && random.chance(50)) {
        lists::spoil_steps(random, draft, &mut steps);
    }
    let question = Question { relation: relation as u64, values, ..Question::default() };
    ask(random, draft, spoil, Listing::derivation(&steps), question)
}

fn trace(random: &mut Random, draft: &Draft) -> Question {
    let lowest = random.chance(30);
    let first = State::first(draft, || if lowest { draft.lo } else { books::value(random, draft.lo, draft.hi) });
    let mut steps = if lowest { lists::derive(random, draft) } else { lists::wander(random, draft, first.clone()) };
    let spoil = Spoil::draw(random);
    if spoil == Spoil::Steps {
        lists::spoil_steps(random, draft, &mut steps);
    }
    let mut last = first.clone();
    for step in &steps {
        last.take(&draft.clauses[step.clause], &step.values);
    }
    let set: Vec<usize> = (0..draft.arities.len()).filter(|&relation| last.flags[relation] == 1).collect();
    let relation = if set.is_empty() { draft.query } else { random.pick(&set) };
    let values = last.places.swap_remove(relation);
    let question = Question { list: Vec::new(), relation: relation as u64, values, notes: lists::notes(draft, &steps) };
    ask(random, draft, spoil, Listing::trace(draft, first, &steps), question)
}

/// What is damaged in a question.
#[derive(Clone, Copy, PartialEq, Eq)]
enum Spoil {
    Nothing,
    Steps,
    List,
    Goal,
}

impl Spoil {
    fn draw(random: &mut Random) -> Spoil {
        match random.below(10) {
            0..=3 => Spoil::Nothing,
            4 | 5 => Spoil::Steps,
            6..=8 => Spoil::List,
            _ => Spoil::Goal,
        }
    }
}

/// The question with its list, damaged where that was drawn.
fn ask(random: &mut Random, draft: &Draft, spoil: Spoil, mut listing: Listing, mut question: Question) -> Question {
    if spoil == Spoil::List {
        for _ in 0..random.pick(&[1, 1, 2, 4]) {
            lists::spoil_list(random, draft, &mut listing, &mut question.notes);
        }
    }
    question.list = listing.numbers;
    if spoil == Spoil::Goal || random.chance(3) {
        lists::spoil_goal(random, draft, &mut question);
    }
    question
}
