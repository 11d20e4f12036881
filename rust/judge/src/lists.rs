//! Derivations and traces: the checks and the conversions.

use crate::book::{Atom, Book, Clause};
use crate::Answer;

const LONGEST: usize = 1_000_000;

#[derive(Clone, Copy)]
struct Goal<'a> {
    relation: usize,
    values: &'a [i32],
}

/// A step that is present in full, with inputs in the window that make its constraint true.
struct Step<'a> {
    clause: &'a Clause,
    values: &'a [i32],
    /// Where the next state of a trace begins, or the next step of a derivation.
    end: usize,
}

/// Reads the book and judges the goal and the list's length.
fn open<'a>(bytes: &[u8], list: &[i32], relation: u64, values: &'a [i32]) -> Result<(Book, Goal<'a>), Answer> {
    let book = Book::read(bytes)?;
    let relation = usize::try_from(relation).unwrap_or(usize::MAX);
    if book.arities.get(relation) != Some(&values.len()) {
        return Err(Answer::new(10, 0));
    }
    if list.is_empty() || list.len() > LONGEST {
        return Err(Answer::new(11, 0));
    }
    Ok((book, Goal { relation, values }))
}

fn find_clause(book: &Book, number: i32) -> Option<&Clause> {
    book.clauses.get(usize::try_from(number).ok()?)
}

/// Reads and judges the step at a place; `state` numbers follow its inputs.
fn read_step<'a>(book: &'a Book, list: &'a [i32], at: usize, state: usize) -> Result<Step<'a>, Answer> {
    let clause = find_clause(book, list[at]).ok_or(Answer::new(12, at))?;
    let end = at + 1 + clause.variables;
    if end + state > list.len() {
        return Err(Answer::new(13, at));
    }
    let values = &list[at + 1..end];
    if let Some(wrong) = values.iter().position(|&value| !book.in_window(value)) {
        return Err(Answer::new(14, at + 1 + wrong));
    }
    if !clause.constraint.holds(values) {
        return Err(Answer::new(15, at));
    }
    Ok(Step { clause, values, end })
}

/// Whether the atom's places have these values.
fn matches(atom: &Atom, values: &[i32], places: &[i32]) -> bool {
    atom.places(values).eq(places.iter().copied())
}

/// Walks a derivation and counts its steps.
fn walk_derivation(book: &Book, list: &[i32], goal: Goal) -> Result<usize, Answer> {
    let mut last: Option<Step> = None;
    let (mut at, mut steps) = (0, 0);
    while at < list.len() {
        let step = read_step(book, list, at, 0)?;
        let met = match (&step.clause.body, &last) {
            (None, None) => true,
            (Some(body), Some(last)) => {
                let head = &last.clause.head;
                body.relation == head.relation && body.places(step.values).eq(head.places(last.values))
            }
            _ => false,
        };
        if !met {
            return Err(Answer::new(16, at));
        }
        at = step.end;
        steps += 1;
        last = Some(step);
    }
    let reached = |step: Step| step.clause.head.relation == goal.relation && matches(&step.clause.head, step.values, goal.values);
    if last.is_some_and(reached) {
        Ok(steps)
    } else {
        Err(Answer::new(17, list.len()))
    }
}

/// A state as a list has it: all flags, then all places in relation order.
struct State {
    numbers: Vec<i32>,
    /// Where each relation's places begin.
    rows: Vec<usize>,
}

impl State {
    /// No flag set, all places the least value.
    fn initial(book: &Book) -> State {
        let mut size = book.arities.len();
        let mut rows = Vec::with_capacity(size);
        for arity in &book.arities {
            rows.push(size);
            size += arity;
        }
        let mut numbers = vec![book.lo; size];
        numbers[..book.arities.len()].fill(0);
        State { numbers, rows }
    }

    fn size(&self) -> usize {
        self.numbers.len()
    }

    fn has(&self, relation: usize, arity: usize) -> Option<&[i32]> {
        let row = self.rows[relation];
        (self.numbers[relation] == 1).then(|| &self.numbers[row..row + arity])
    }

    fn meets(&self, atom: &Atom, values: &[i32]) -> bool {
        self.has(atom.relation, atom.arguments.len()).is_some_and(|places| matches(atom, values, places))
    }

    fn write(&mut self, head: &Atom, values: &[i32]) {
        self.numbers[head.relation] = 1;
        let row = &mut self.numbers[self.rows[head.relation]..];
        for (place, value) in row.iter_mut().zip(head.places(values)) {
            *place = value;
        }
    }
}

/// Judges a trace's first state.
fn read_first(book: &Book, list: &[i32], state: &mut State) -> Result<(), Answer> {
    let first = list.get(..state.size()).ok_or(Answer::new(13, 0))?;
    let flags = book.arities.len();
    if let Some(wrong) = first[..flags].iter().position(|&flag| flag != 0) {
        return Err(Answer::new(18, wrong));
    }
    if let Some(wrong) = first[flags..].iter().position(|&value| !book.in_window(value)) {
        return Err(Answer::new(14, flags + wrong));
    }
    state.numbers.copy_from_slice(first);
    Ok(())
}

/// Walks a trace and tells where each step begins.
fn walk_trace(book: &Book, list: &[i32], goal: Goal, mut tell: impl FnMut(usize)) -> Result<(), Answer> {
    let mut state = State::initial(book);
    read_first(book, list, &mut state)?;
    let mut at = state.size();
    while at < list.len() {
        let step = read_step(book, list, at, state.size())?;
        if step.clause.body.as_ref().is_some_and(|body| !state.meets(body, step.values)) {
            return Err(Answer::new(16, at));
        }
        state.write(&step.clause.head, step.values);
        let next = &list[step.end..step.end + state.size()];
        if next != state.numbers {
            let same = next.iter().zip(&state.numbers).take_while(|(a, b)| a == b).count();
            return Err(Answer::new(19, step.end + same));
        }
        tell(at);
        at = step.end + state.size();
    }
    if state.has(goal.relation, goal.values.len()) == Some(goal.values) {
        Ok(())
    } else {
        Err(Answer::new(17, list.len()))
    }
}

fn answer(result: Result<usize, Answer>) -> Answer {
    match result {
        Ok(length) => Answer::new(0, length),
        Err(refusal) => refusal,
    }
}

/// Whether the list is a derivation of the goal.
pub fn derivation(book: &[u8], list: &[i32], relation: u64, values: &[i32]) -> Answer {
    answer(open(book, list, relation, values).and_then(|(book, goal)| {
        walk_derivation(&book, list, goal)?;
        Ok(0)
    }))
}

/// Whether the list is a trace that reaches the goal.
pub fn trace(book: &[u8], list: &[i32], relation: u64, values: &[i32]) -> Answer {
    answer(open(book, list, relation, values).and_then(|(book, goal)| {
        walk_trace(&book, list, goal, |_| ())?;
        Ok(0)
    }))
}

/// Writes a derivation's trace into the room.
pub fn to_trace(book: &[u8], list: &[i32], relation: u64, values: &[i32], room: &mut [i32]) -> Answer {
    answer(open(book, list, relation, values).and_then(|(book, goal)| {
        let steps = walk_derivation(&book, list, goal)?;
        let state = State::initial(&book);
        let length = state.size() + list.len() + steps * state.size();
        if length > LONGEST {
            return Err(Answer::new(20, length));
        }
        let room = room.get_mut(..length).ok_or(Answer::new(9, length))?;
        write_trace(&book, list, state, room);
        Ok(length)
    }))
}

/// Copies a part to the front of the room and gives the rest.
fn put<'a>(room: &'a mut [i32], part: &[i32]) -> &'a mut [i32] {
    let (front, rest) = room.split_at_mut(part.len());
    front.copy_from_slice(part);
    rest
}

fn write_trace(book: &Book, list: &[i32], mut state: State, room: &mut [i32]) {
    let mut room = put(room, &state.numbers);
    let mut rest = list;
    while let Some(&number) = rest.first() {
        let clause = &book.clauses[number as usize];
        let (step, later) = rest.split_at(1 + clause.variables);
        state.write(&clause.head, &step[1..]);
        room = put(room, step);
        room = put(room, &state.numbers);
        rest = later;
    }
}

/// Writes a trace's derivation into the room.
pub fn to_derivation(book: &[u8], list: &[i32], relation: u64, values: &[i32], room: &mut [i32]) -> Answer {
    answer(open(book, list, relation, values).and_then(|(book, goal)| {
        let mut starts = Vec::new();
        walk_trace(&book, list, goal, |at| starts.push(at))?;
        let steps = chain(&book, list, goal.relation, &starts);
        let length = steps.iter().map(|step| step.len()).sum();
        let mut room = room.get_mut(..length).ok_or(Answer::new(9, length))?;
        for step in steps.iter().rev() {
            room = put(room, step);
        }
        Ok(length)
    }))
}

/// The steps that lead to the goal, the last one first: its relation's last writer, the last earlier writer of that one's body, and so on.
fn chain<'a>(book: &Book, list: &'a [i32], mut wanted: usize, starts: &[usize]) -> Vec<&'a [i32]> {
    let mut steps = Vec::new();
    for &at in starts.iter().rev() {
        let clause = &book.clauses[list[at] as usize];
        if clause.head.relation != wanted {
            continue;
        }
        steps.push(&list[at..at + 1 + clause.variables]);
        match &clause.body {
            Some(body) => wanted = body.relation,
            None => break,
        }
    }
    steps
}
