//! The model check. A clause's constraint, its body's and its head's become one list of tests over the clause's variables. For each choice
//! of all variables but the last, tests that stand first and do not see the last one are made once, and of the others the sums are worked
//! out once: along the last variable they only move by its coefficient.

use crate::book::{Atom, Book, Clause, Reader};
use crate::lists::VARIABLES;
use crate::truth::{hold, Constraint, Node, Sum, Term, Test, Tests, FALSE, TRUE};
use crate::{Answer, ModelAnswer, Values};

/// How many assignments are tried at most.
const MOST: u64 = 1_000_000;

/// Whether the model, one constraint for each relation, excludes the query.
pub fn model(book: &[u8], model: &[u8]) -> ModelAnswer {
    let examined = Book::read(book).and_then(|read| {
        let constraints = Model::read(&read, model)?;
        Ok(examine(&read, book, &constraints))
    });
    examined.unwrap_or_else(|Answer { number, place }| ModelAnswer { number, place, count: 0, clause: 0, values: [0; 16] })
}

/// A model that was read, and which node each relation's constraint begins with.
struct Model<'a> {
    bytes: &'a [u8],
    nodes: Vec<Node>,
    starts: [usize; 16],
}

impl<'a> Model<'a> {
    /// Reads a model; refuses it if the query's constraint is true or there are too many assignments to try.
    fn read(book: &Book, bytes: &'a [u8]) -> Result<Model<'a>, Answer> {
        let mut model = Model { bytes, nodes: Vec::with_capacity(64), starts: [0; 16] };
        let mut reader = Reader { bytes, at: 0, short: 22, unfit: 21 };
        let mut query = 0;
        for relation in 0..book.relations {
            model.starts[relation] = model.nodes.len();
            if relation == book.query {
                query = reader.at;
            }
            reader.constraint(usize::from(book.arities[relation]), &mut model.nodes)?;
        }
        if reader.at != bytes.len() {
            return Err(Answer::refused(22, reader.at));
        }
        let constraint = Constraint { bytes, nodes: &model.nodes, first: model.starts[book.query], variables: &[] };
        if hold(&Tests::of(&constraint).list, |sum| sum.of(&[0; 16])) {
            return Err(Answer::refused(23, query));
        }
        let sizes = book.clauses.iter().map(|clause| book.width().saturating_pow(u32::from(clause.variables)));
        if sizes.fold(0, u64::saturating_add) > MOST {
            return Err(Answer::refused(24, 0));
        }
        Ok(model)
    }

    /// The constraint of an atom's relation, over the clause's variables.
    fn constraint<'b>(&'b self, atom: &'b Atom) -> Constraint<'b> {
        let first = self.starts[usize::from(atom.relation)];
        Constraint { bytes: self.bytes, nodes: &self.nodes, first, variables: atom.arguments() }
    }
}

fn examine(book: &Book, bytes: &[u8], model: &Model) -> ModelAnswer {
    let mut count = 0;
    for (number, clause) in book.clauses.iter().enumerate() {
        let variables = usize::from(clause.variables);
        let constraint = Constraint { bytes, nodes: &book.nodes, first: clause.constraint, variables: &VARIABLES[..variables] };
        let tests = broken(clause, &constraint, model);
        let task = Task { book, variables, seen: tests.list.iter().map(|test| seen(&test.sum)).collect(), tests };
        if let Some(values) = task.examine(&mut count) {
            return ModelAnswer { number: 25, place: count, count, clause: number as u64, values };
        }
    }
    ModelAnswer { number: 0, place: 0, count, clause: 0, values: [0; 16] }
}

/// Tests that are true of a broken instance: the constraint, then the body, then not the head.
fn broken(clause: &Clause, constraint: &Constraint, model: &Model) -> Tests {
    let mut tests = Tests::default();
    let mut entry = tests.put(&model.constraint(&clause.head), FALSE, TRUE);
    if entry != FALSE && clause.body.relation != Atom::NONE.relation {
        entry = tests.put(&model.constraint(&clause.body), entry, FALSE);
    }
    if entry != FALSE {
        entry = tests.put(constraint, entry, FALSE);
    }
    tests.close(entry);
    tests
}

/// How many variables there are up to the last that a sum sees.
fn seen(sum: &Sum) -> usize {
    sum.terms().map(|term| usize::from(term.variable) + 1).max().unwrap_or(0)
}

/// A clause to be examined.
struct Task<'a> {
    book: &'a Book,
    variables: usize,
    tests: Tests,
    /// What `seen` says of each test's sum.
    seen: Vec<usize>,
}

/// A sum along the last variable.
struct Line {
    base: i64,
    step: i64,
}

impl Line {
    #[inline(always)]
    fn of(&self, last: i32) -> i64 {
        self.base.wrapping_add(self.step * i64::from(last))
    }
}

impl Task<'_> {
    /// Tries every assignment and counts them; gives the first broken one.
    fn examine(&self, count: &mut u64) -> Option<Values> {
        let mut values = [0; 16];
        let Some(last) = self.variables.checked_sub(1) else {
            *count += 1;
            return hold(&self.tests.list, |sum| sum.of(&values)).then_some(values);
        };
        values[..last].fill(self.book.lo);
        let mut lines = Vec::with_capacity(self.tests.list.len());
        loop {
            if let Some(found) = self.row(&values, last, &mut lines) {
                *count += (i64::from(found) - i64::from(self.book.lo) + 1) as u64;
                values[last] = found;
                return Some(values);
            }
            *count += self.book.width();
            if !advance(self.book, &mut values[..last]) {
                return None;
            }
        }
    }

    /// The first value of the last variable, which is 0 in `values`, that breaks the clause.
    #[inline]
    fn row(&self, values: &Values, last: usize, lines: &mut Vec<Test<Line>>) -> Option<i32> {
        let left = self.decided(values, last)?;
        let line = |test: &Test<Sum>| {
            let at_last = test.sum.terms().find(|term| usize::from(term.variable) == last);
            let Term { coefficient, .. } = at_last.unwrap_or_default();
            Test { sum: Line { base: test.sum.of(values), step: i64::from(coefficient) }, way: test.way }
        };
        lines.clear();
        lines.extend(self.tests.list[..left].iter().map(line));
        (self.book.lo..=self.book.hi).find(|&x| hold(lines, |line| line.of(x)))
    }

    /// Makes the tests that stand first and see only the variables before the last; gives how many are left, or none for false.
    #[inline]
    fn decided(&self, values: &Values, last: usize) -> Option<usize> {
        let mut left = self.tests.list.len();
        while left > 0 && self.seen[left - 1] <= last {
            let test = &self.tests.list[left - 1];
            match test.way.next(test.sum.of(values), (left - 1) as u16) {
                FALSE => return None,
                label => left = usize::from(label),
            }
        }
        Some(left)
    }
}

/// Moves on to the next choice, the last variable fastest; false after the last one.
fn advance(book: &Book, values: &mut [i32]) -> bool {
    for value in values.iter_mut().rev() {
        if *value < book.hi {
            *value += 1;
            return true;
        }
        *value = book.lo;
    }
    false
}
