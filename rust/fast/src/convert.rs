//! The conversions between derivations and traces.

use crate::book::Clause;
use crate::lists::{sixteen, Opened, LONGEST};
use crate::traces::Rows;
use crate::Answer;

/// Writes a derivation's trace into the room.
pub fn to_trace(book: &[u8], list: &[i32], relation: u64, values: &[i32], room: &mut [i32]) -> Answer {
    Answer::of(Opened::new(book, list, relation, values).and_then(|opened| {
        let steps = opened.derivation(list)?;
        let rows = Rows::of(&opened.book);
        let length = rows.size + list.len() + steps * rows.size;
        if length > LONGEST {
            return Err(Answer::refused(20, length));
        }
        let room = room.get_mut(..length).ok_or_else(|| Answer::refused(9, length))?;
        write_trace(&opened, list, &rows, room);
        Ok(length)
    }))
}

/// Writes the trace of an accepted derivation.
fn write_trace(opened: &Opened, list: &[i32], rows: &Rows, room: &mut [i32]) {
    let mut spare = [0; 16];
    let mut numbers = [0; 16 + 16 * 8];
    let state = &mut numbers[..rows.size];
    state[opened.book.relations..].fill(opened.book.lo);
    copy(&mut room[..rows.size], state);
    let (mut at, mut to) = (0, rows.size);
    while at < list.len() {
        let clause = &opened.rules[list[at] as usize].clause;
        let count = 1 + usize::from(clause.variables);
        rows.write(state, &clause.head, sixteen(list, at + 1, &mut spare));
        let (step, next) = room[to..to + count + rows.size].split_at_mut(count);
        copy(step, &list[at..at + count]);
        copy(next, state);
        at += count;
        to += count + rows.size;
    }
}

/// Copies a step or a state. Most have few numbers, for which a call costs more than it saves.
#[inline(always)]
fn copy(to: &mut [i32], from: &[i32]) {
    if from.len() > 12 {
        return to.copy_from_slice(from);
    }
    let (to, from) = (to.chunks_mut(2), from.chunks(2));
    for (to, from) in to.zip(from) {
        to[0] = from[0];
        if from.len() == 2 {
            to[1] = from[1];
        }
    }
}

/// A step of a trace: where it begins, and which step had written its body.
struct Step {
    start: u32,
    before: u32,
}

/// No step.
const NOBODY: u32 = u32::MAX;

/// A trace's steps as far as the way back needs them.
struct Steps {
    all: Vec<Step>,
    /// For each relation the step that wrote it last, and how many numbers the derivation of its fact has. 255, cut to five bits, is the
    /// last slot, which no relation has.
    writers: [u32; 32],
    lengths: [u32; 32],
}

impl Steps {
    fn with_capacity(count: usize) -> Steps {
        Steps { all: Vec::with_capacity(count), writers: [NOBODY; 32], lengths: [0; 32] }
    }

    #[inline(always)]
    fn push(&mut self, start: usize, clause: &Clause) {
        let (body, head) = (usize::from(clause.body.relation & 31), usize::from(clause.head.relation & 31));
        let before = self.writers[body];
        self.lengths[head] = self.lengths[body] + 1 + u32::from(clause.variables);
        self.writers[head] = self.all.len() as u32;
        self.all.push(Step { start: start as u32, before });
    }
}

/// Writes a trace's derivation into the room.
pub fn to_derivation(book: &[u8], list: &[i32], relation: u64, values: &[i32], room: &mut [i32]) -> Answer {
    Answer::of(Opened::new(book, list, relation, values).and_then(|opened| {
        let mut steps = Steps::with_capacity(list.len() / (2 + opened.book.relations));
        opened.trace(list, |start, clause| steps.push(start, clause))?;
        let length = steps.lengths[opened.relation] as usize;
        let room = room.get_mut(..length).ok_or_else(|| Answer::refused(9, length))?;
        write_derivation(&opened, list, &steps, room);
        Ok(length)
    }))
}

/// Writes the derivation of an accepted trace, its last step first.
fn write_derivation(opened: &Opened, list: &[i32], steps: &Steps, room: &mut [i32]) {
    let (mut step, mut to) = (steps.writers[opened.relation], room.len());
    while step != NOBODY {
        let Step { start, before } = steps.all[step as usize];
        let start = start as usize;
        let count = 1 + usize::from(opened.rules[list[start] as usize].clause.variables);
        to -= count;
        copy(&mut room[to..to + count], &list[start..start + count]);
        step = before;
    }
}
