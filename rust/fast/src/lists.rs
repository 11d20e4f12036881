//! What the calls on lists share, and the check of derivations.

use crate::book::{Atom, Book, Clause};
use crate::truth::{hold, Constraint, Tests};
use crate::{Answer, Values};

/// How many numbers a list has at most.
pub const LONGEST: usize = 1_000_000;

/// The numbers of a clause's variables.
pub const VARIABLES: [u8; 16] = [0, 1, 2, 3, 4, 5, 6, 7, 8, 9, 10, 11, 12, 13, 14, 15];

/// A clause with its constraint as tests.
pub struct Rule {
    pub clause: Clause,
    tests: Tests,
}

/// A book that was read, and a goal of it.
pub struct Opened<'a> {
    pub book: Book,
    pub rules: Vec<Rule>,
    pub relation: usize,
    pub goal: &'a [i32],
}

/// The sixteen numbers from a place on: lent where the list has as many, else copied.
#[inline(always)]
pub fn sixteen<'a>(list: &'a [i32], from: usize, spare: &'a mut Values) -> &'a Values {
    match list[from..].first_chunk() {
        Some(chunk) => chunk,
        None => tail(&list[from..], spare),
    }
}

#[cold]
fn tail<'a>(rest: &[i32], spare: &'a mut Values) -> &'a Values {
    spare[..rest.len()].copy_from_slice(rest);
    spare
}

#[inline(always)]
pub fn value(values: &Values, variable: u8) -> i32 {
    values[usize::from(variable & 15)]
}

impl<'a> Opened<'a> {
    /// Reads the book and judges the goal and the list's length.
    pub fn new(bytes: &[u8], list: &[i32], relation: u64, goal: &'a [i32]) -> Result<Opened<'a>, Answer> {
        let book = Book::read(bytes)?;
        let relation = usize::try_from(relation).unwrap_or(usize::MAX);
        if relation >= book.relations || usize::from(book.arities[relation]) != goal.len() {
            return Err(Answer::refused(10, 0));
        }
        if list.is_empty() || list.len() > LONGEST {
            return Err(Answer::refused(11, 0));
        }
        let rule = |clause: &Clause| {
            let variables = &VARIABLES[..usize::from(clause.variables)];
            let tests = Tests::of(&Constraint { bytes, nodes: &book.nodes, first: clause.constraint, variables });
            Rule { clause: *clause, tests }
        };
        let rules = book.clauses.iter().map(rule).collect();
        Ok(Opened { book, rules, relation, goal })
    }

    /// The rule of the clause whose number stands at a place of the list.
    #[inline(always)]
    pub fn rule(&self, list: &[i32], at: usize) -> Result<&Rule, Answer> {
        // a number below zero is far above every clause's
        self.rules.get(list[at] as u32 as usize).ok_or_else(|| Answer::refused(12, at))
    }

    /// Judges the instance at a place, whose values are lent; `more` numbers follow it. Gives where it ends.
    #[inline(always)]
    pub fn instance(&self, list: &[i32], at: usize, rule: &Rule, values: &Values, more: usize) -> Result<usize, Answer> {
        let count = usize::from(rule.clause.variables);
        let end = at + 1 + count;
        if end + more > list.len() {
            return Err(Answer::refused(13, at));
        }
        let Book { lo, hi, .. } = self.book;
        for (k, &value) in values.iter().enumerate().take(count) {
            if value.wrapping_sub(lo) as u32 > hi.wrapping_sub(lo) as u32 {
                return Err(Answer::refused(14, at + 1 + k));
            }
        }
        if !hold(&rule.tests.list, |sum| sum.of(values)) {
            return Err(Answer::refused(15, at));
        }
        Ok(end)
    }

    /// Checks a derivation; gives how many steps it has.
    pub fn derivation(&self, list: &[i32]) -> Result<usize, Answer> {
        let mut spare = [0; 16];
        let (mut at, mut steps) = (0, 0);
        // the fact before: its atom, and where its values stand
        let (mut last, mut from) = (&Atom::NONE, 0);
        while at < list.len() {
            let rule = self.rule(list, at)?;
            let values = sixteen(list, at + 1, &mut spare);
            let end = self.instance(list, at, rule, values, 0)?;
            let body = &rule.clause.body;
            if body.relation != last.relation || !same(&list[from..], last, body, values) {
                return Err(Answer::refused(16, at));
            }
            (last, from) = (&rule.clause.head, at + 1);
            at = end;
            steps += 1;
        }
        let places = last.arguments().iter().map(|&variable| list[from + usize::from(variable)]);
        if usize::from(last.relation) == self.relation && places.eq(self.goal.iter().copied()) {
            Ok(steps)
        } else {
            Err(Answer::refused(17, list.len()))
        }
    }
}

/// Whether two facts of one relation have the same values; the first one's stand at the front of `before`.
#[inline(always)]
fn same(before: &[i32], one: &Atom, other: &Atom, values: &Values) -> bool {
    let mut pairs = one.arguments().iter().zip(other.arguments());
    pairs.all(|(&a, &b)| before[usize::from(a)] == value(values, b))
}

/// Whether the list is a derivation of the goal.
pub fn derivation(book: &[u8], list: &[i32], relation: u64, values: &[i32]) -> Answer {
    Answer::of(Opened::new(book, list, relation, values).and_then(|opened| opened.derivation(list).map(|_| 0)))
}
