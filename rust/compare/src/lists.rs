//! Derivations and traces: walked at random, and damaged.

use crate::books::value;
use crate::damage::draw_mark;
use crate::draft::{Atom, Clause, Draft};
use crate::random::Random;

/// A list with a goal.
#[derive(Default)]
pub struct Question {
    pub list: Vec<i32>,
    pub relation: u64,
    pub values: Vec<i32>,
    pub notes: Notes,
}

/// What a trace was made to show.
#[derive(Default, Clone, Copy)]
pub struct Notes {
    /// A clause without body after the first step.
    pub bodiless_later: bool,
    /// A changed place of a relation that is not set.
    pub loose_place: bool,
    /// How many numbers a derivation of all steps would have.
    pub all_steps: usize,
}

#[derive(Clone)]
pub struct Step {
    pub clause: usize,
    pub values: Vec<i32>,
}

/// What a number in a list is.
#[derive(Clone, Copy, PartialEq, Eq)]
pub enum Part {
    FirstFlag,
    FirstPlace,
    Clause,
    Input,
    Flag,
    /// A place of a relation whose flag is 1 or 0.
    SetPlace,
    UnsetPlace,
}

const PARTS: [Part; 7] =
    [Part::FirstFlag, Part::FirstPlace, Part::Clause, Part::Input, Part::Flag, Part::SetPlace, Part::UnsetPlace];

/// A list as it is written, with a mark on each number.
#[derive(Default)]
pub struct Listing {
    pub numbers: Vec<i32>,
    pub marks: Vec<(Part, usize)>,
}

#[derive(Clone)]
pub struct State {
    pub flags: Vec<i32>,
    pub places: Vec<Vec<i32>>,
}

impl State {
    pub fn first(draft: &Draft, mut place: impl FnMut() -> i32) -> State {
        let places = draft.arities.iter().map(|&arity| (0..arity).map(|_| place()).collect()).collect();
        State { flags: vec![0; draft.arities.len()], places }
    }

    pub fn take(&mut self, clause: &Clause, values: &[i32]) {
        self.flags[clause.head.relation] = 1;
        let row = &mut self.places[clause.head.relation];
        for (place, value) in row.iter_mut().zip(places(&clause.head, values)) {
            *place = value;
        }
    }
}

fn places(atom: &Atom, values: &[i32]) -> Vec<i32> {
    atom.arguments.iter().map(|&variable| values[variable]).collect()
}

impl Listing {
    fn put(&mut self, part: Part, number: i32) {
        self.marks.push((part, self.numbers.len()));
        self.numbers.push(number);
    }

    fn step(&mut self, step: &Step) {
        self.put(Part::Clause, step.clause as i32);
        for &value in &step.values {
            self.put(Part::Input, value);
        }
    }

    fn state(&mut self, state: &State, first: bool) {
        for &flag in &state.flags {
            self.put(if first { Part::FirstFlag } else { Part::Flag }, flag);
        }
        for (row, flag) in state.places.iter().zip(&state.flags) {
            let part = match (first, flag) {
                (true, _) => Part::FirstPlace,
                (false, 1) => Part::SetPlace,
                (false, _) => Part::UnsetPlace,
            };
            row.iter().for_each(|&place| self.put(part, place));
        }
    }

    pub fn derivation(steps: &[Step]) -> Listing {
        let mut listing = Listing::default();
        steps.iter().for_each(|step| listing.step(step));
        listing
    }

    /// The trace of these steps, whether or not they may be taken.
    pub fn trace(draft: &Draft, mut state: State, steps: &[Step]) -> Listing {
        let mut listing = Listing::default();
        listing.state(&state, true);
        for step in steps {
            listing.step(step);
            state.take(&draft.clauses[step.clause], &step.values);
            listing.state(&state, false);
        }
        listing
    }
}

/// Values in the window that make the clause's constraint true, and its body equal to a row of places if there is one.
fn instance(random: &mut Random, draft: &Draft, clause: &Clause, row: Option<&[i32]>) -> Option<Vec<i32>> {
    for attempt in 0..6 {
        let mut values = clause.witness.clone();
        for drawn in values.iter_mut().filter(|_| attempt > 0) {
            if random.chance(60) {
                *drawn = value(random, draft.lo, draft.hi);
            }
        }
        if let (Some(body), Some(row)) = (&clause.body, row) {
            for (&variable, &place) in body.arguments.iter().zip(row) {
                values[variable] = place;
            }
            if places(body, &values) != row {
                continue;
            }
        }
        if clause.constraint.holds(&values) {
            return Some(values);
        }
    }
    None
}

/// A step by one of the clauses that fit; none if a few attempts find none.
fn draw_step<'a>(random: &mut Random, draft: &Draft, row: impl Fn(&Clause) -> Option<Option<&'a [i32]>>) -> Option<Step> {
    let fitting: Vec<usize> = (0..draft.clauses.len()).filter(|&number| row(&draft.clauses[number]).is_some()).collect();
    for _ in 0..fitting.len().min(5) {
        let clause = random.pick(&fitting);
        let taken = &draft.clauses[clause];
        if let Some(values) = instance(random, draft, taken, row(taken)?) {
            return Some(Step { clause, values });
        }
    }
    None
}

fn length(random: &mut Random) -> usize {
    let most = random.pick(&[1, 2, 4, 4, 8, 8, 16, 40]);
    random.below(most) + 1
}

/// Steps of a derivation; none where no attempt finds a first one.
pub fn derive(random: &mut Random, draft: &Draft) -> Vec<Step> {
    let mut steps: Vec<Step> = Vec::new();
    for _ in 0..length(random) {
        let last = steps.last().map(|step| head_fact(draft, step));
        let step = draw_step(random, draft, |clause| match (&last, &clause.body) {
            (None, None) => Some(None),
            (Some((relation, row)), Some(body)) if *relation == body.relation => Some(Some(row.as_slice())),
            _ => None,
        });
        match step {
            Some(step) => steps.push(step),
            None => break,
        }
    }
    steps
}

/// Steps of a trace from a state.
pub fn wander(random: &mut Random, draft: &Draft, mut state: State) -> Vec<Step> {
    let mut steps = Vec::new();
    for _ in 0..length(random) {
        let step = draw_step(random, draft, |clause| match &clause.body {
            None => Some(None),
            Some(body) => (state.flags[body.relation] == 1).then(|| Some(state.places[body.relation].as_slice())),
        });
        let Some(step) = step else { break };
        state.take(&draft.clauses[step.clause], &step.values);
        steps.push(step);
    }
    steps
}

pub fn notes(draft: &Draft, steps: &[Step]) -> Notes {
    let bodiless_later = steps.iter().skip(1).any(|step| draft.clauses[step.clause].body.is_none());
    Notes { bodiless_later, loose_place: false, all_steps: steps.iter().map(|step| 1 + step.values.len()).sum() }
}

/// The fact that a step derives.
pub fn head_fact(draft: &Draft, step: &Step) -> (usize, Vec<i32>) {
    let head = &draft.clauses[step.clause].head;
    (head.relation, places(head, &step.values))
}

/// Adds a step that need not fit, takes one out, or repeats one.
pub fn spoil_steps(random: &mut Random, draft: &Draft, steps: &mut Vec<Step>) {
    let at = random.below(steps.len() + 1);
    match random.below(4) {
        0 | 1 => {
            if let Some(step) = draw_step(random, draft, |_| Some(None)) {
                steps.insert(at, step);
            }
        }
        2 if at < steps.len() => drop(steps.remove(at)),
        _ if at < steps.len() => steps.insert(at, steps[at].clone()),
        _ => (),
    }
}

/// Changes a number, or the list's length.
pub fn spoil_list(random: &mut Random, draft: &Draft, listing: &mut Listing, notes: &mut Notes) {
    let numbers = &mut listing.numbers;
    match random.below(10) {
        0 => numbers.truncate(random.below(numbers.len() + 1)),
        1 => numbers.push(random.between(-1, 2) as i32),
        2 => numbers.clear(),
        _ => {
            let drawn = draw_mark(random, &PARTS, &listing.marks);
            if let Some((part, at)) = drawn.filter(|&(_, at)| at < numbers.len()) {
                notes.loose_place |= part == Part::UnsetPlace;
                numbers[at] = wrong_number(random, draft, part, numbers[at]);
            }
        }
    }
}

fn wrong_number(random: &mut Random, draft: &Draft, part: Part, number: i32) -> i32 {
    let (lo, hi) = (draft.lo, draft.hi);
    let near = number.wrapping_add(random.pick(&[-1, 1]));
    let clauses = draft.clauses.len() as i32;
    let inside = value(random, lo, hi);
    match part {
        Part::FirstFlag | Part::Flag => random.pick(&[1_i32.wrapping_sub(number), 2, -1, 256, i32::MIN, i32::MAX]),
        Part::Clause => random.pick(&[clauses, clauses - 1, -1, 64, 256, i32::MIN, i32::MAX, near]),
        _ => random.pick(&[lo.wrapping_sub(1), hi.wrapping_add(1), i32::MIN, i32::MAX, near, near, inside, inside]),
    }
}

/// Changes the goal.
pub fn spoil_goal(random: &mut Random, draft: &Draft, question: &mut Question) {
    let relations = draft.arities.len() as u64;
    match random.below(7) {
        0 => question.relation = random.pick(&[relations, relations - 1, 16, 255, 256, 1 << 32, 1 << 63, u64::MAX]),
        1 => question.relation += random.pick(&[1 << 32, 1 << 8, 1 << 63]),
        2 => question.values.push(draft.lo),
        3 => drop(question.values.pop()),
        4 | 5 if !question.values.is_empty() => {
            let at = random.below(question.values.len());
            question.values[at] = wrong_number(random, draft, Part::Input, question.values[at]);
        }
        _ => {
            let relation = random.below(draft.arities.len());
            question.relation = relation as u64;
            question.values = vec![draft.lo; draft.arities[relation]];
        }
    }
}
