//! The check of traces. A state is never copied: it stands in the list.

use crate::book::{Atom, Book, Clause, NONE};
use crate::lists::{sixteen, value, Opened};
use crate::{Answer, Values};

/// Where each relation's places begin in a state, and how many numbers a state has.
pub struct Rows {
    starts: [u8; 16],
    pub size: usize,
}

impl Rows {
    pub fn of(book: &Book) -> Rows {
        let mut starts = [0; 16];
        let mut size = book.relations;
        for (start, arity) in starts.iter_mut().zip(book.arities) {
            *start = size as u8;
            size += usize::from(arity);
        }
        Rows { starts, size }
    }

    #[inline(always)]
    fn start(&self, relation: u8) -> usize {
        usize::from(self.starts[usize::from(relation & 15)])
    }

    /// Sets the flag and the places that an atom's instance writes.
    #[inline(always)]
    pub fn write(&self, state: &mut [i32], head: &Atom, values: &Values) {
        state[usize::from(head.relation)] = 1;
        let row = &mut state[self.start(head.relation)..];
        for (place, &variable) in row.iter_mut().zip(head.arguments()) {
            *place = value(values, variable);
        }
    }

    /// Whether the state has the atom's flag, and in its places the values of its arguments.
    #[inline(always)]
    fn has(&self, state: &[i32], atom: &Atom, values: &Values) -> bool {
        let start = self.start(atom.relation);
        let row = &state[start..start + usize::from(atom.arity)];
        state[usize::from(atom.relation)] == 1
            && row.iter().zip(atom.arguments()).all(|(&place, &variable)| place == value(values, variable))
    }

    /// Whether two states differ in nothing but what belongs to a relation.
    #[inline(always)]
    fn framed(&self, state: &[i32], next: &[i32], atom: &Atom) -> bool {
        let (flag, start) = (usize::from(atom.relation), self.start(atom.relation));
        let end = start + usize::from(atom.arity);
        alike(&next[..flag], &state[..flag])
            && alike(&next[flag + 1..start], &state[flag + 1..start])
            && alike(&next[end..], &state[end..])
    }
}

/// As `==`, without the call that it would be; the parts are short.
#[inline(always)]
fn alike(one: &[i32], other: &[i32]) -> bool {
    one.iter().zip(other).all(|(a, b)| a == b)
}

impl Opened<'_> {
    /// Checks a trace; tells where each step begins, and its clause.
    #[inline(always)]
    pub fn trace(&self, list: &[i32], mut tell: impl FnMut(usize, &Clause)) -> Result<(), Answer> {
        let rows = Rows::of(&self.book);
        let size = rows.size;
        let mut state = self.first_state(list, size)?;
        let mut spare = [0; 16];
        let mut at = size;
        while at < list.len() {
            let rule = self.rule(list, at)?;
            let values = sixteen(list, at + 1, &mut spare);
            let end = self.instance(list, at, rule, values, size)?;
            let Clause { body, head, .. } = &rule.clause;
            if body.relation != NONE && !rows.has(state, body, values) {
                return Err(Answer::refused(16, at));
            }
            let next = &list[end..end + size];
            if !rows.has(next, head, values) || !rows.framed(state, next, head) {
                return Err(Answer::refused(19, end + differing(&rows, state, next, head, values)));
            }
            tell(at, &rule.clause);
            state = next;
            at = end + size;
        }
        self.reached(&rows, state).then_some(()).ok_or_else(|| Answer::refused(17, list.len()))
    }

    /// The first state, if it is an initial one.
    fn first_state<'a>(&self, list: &'a [i32], size: usize) -> Result<&'a [i32], Answer> {
        let Book { lo, hi, relations, .. } = self.book;
        let state = list.get(..size).ok_or_else(|| Answer::refused(13, 0))?;
        if let Some(wrong) = state[..relations].iter().position(|&flag| flag != 0) {
            return Err(Answer::refused(18, wrong));
        }
        if let Some(wrong) = state[relations..].iter().position(|&value| value < lo || value > hi) {
            return Err(Answer::refused(14, relations + wrong));
        }
        Ok(state)
    }

    fn reached(&self, rows: &Rows, state: &[i32]) -> bool {
        let start = rows.start(self.relation as u8);
        state[self.relation] == 1 && state[start..start + self.goal.len()] == *self.goal
    }
}

/// The first number of the next state that is not the one due.
#[cold]
fn differing(rows: &Rows, state: &[i32], next: &[i32], head: &Atom, values: &Values) -> usize {
    let mut due = state.to_vec();
    rows.write(&mut due, head, values);
    due.iter().zip(next).take_while(|(a, b)| a == b).count()
}

/// Whether the list is a trace that reaches the goal.
pub fn trace(book: &[u8], list: &[i32], relation: u64, values: &[i32]) -> Answer {
    Answer::of(Opened::new(book, list, relation, values).and_then(|opened| opened.trace(list, |_, _| ()).map(|()| 0)))
}
