//! The model check.

use crate::book::{Atom, Book, Clause, Node, Reader};
use crate::{Answer, ModelAnswer};

const MOST: u64 = 1_000_000;

/// Whether the model, one constraint for each relation, excludes the query.
pub fn model(book: &[u8], model: &[u8]) -> ModelAnswer {
    let opened = Book::read(book).and_then(|book| {
        let constraints = read_model(&book, model)?;
        Ok((book, constraints))
    });
    match opened {
        Ok((book, constraints)) => examine(&book, &constraints),
        Err(refusal) => ModelAnswer { number: refusal.number, place: refusal.place, count: 0, clause: 0, values: [0; 16] },
    }
}

/// Reads a model; refuses it if the query's constraint is true or there are too many assignments to try.
fn read_model(book: &Book, bytes: &[u8]) -> Result<Vec<Node>, Answer> {
    let mut reader = Reader { bytes, at: 0, short: 22, unfit: 21 };
    let mut constraints = Vec::with_capacity(book.arities.len());
    let mut query = 0;
    for (relation, &arity) in book.arities.iter().enumerate() {
        if relation == book.query {
            query = reader.at;
        }
        constraints.push(reader.constraint(arity)?);
    }
    if reader.at != bytes.len() {
        return Err(Answer::new(22, reader.at));
    }
    if constraints[book.query].holds(&[]) {
        return Err(Answer::new(23, query));
    }
    let width = (i64::from(book.hi) - i64::from(book.lo) + 1) as u64;
    let sizes = book.clauses.iter().map(|clause| width.saturating_pow(clause.variables as u32));
    if sizes.fold(0, u64::saturating_add) > MOST {
        return Err(Answer::new(24, 0));
    }
    Ok(constraints)
}

/// Tries every assignment of every clause.
fn examine(book: &Book, constraints: &[Node]) -> ModelAnswer {
    let mut count = 0;
    for (number, clause) in book.clauses.iter().enumerate() {
        let mut values = [0; 16];
        values[..clause.variables].fill(book.lo);
        loop {
            count += 1;
            if broken(clause, constraints, &values[..clause.variables]) {
                return ModelAnswer { number: 25, place: count, count, clause: number as u64, values };
            }
            if !advance(book, &mut values[..clause.variables]) {
                break;
            }
        }
    }
    ModelAnswer { number: 0, place: 0, count, clause: 0, values: [0; 16] }
}

/// Moves on to the next assignment, the last variable fastest; false after the last one.
fn advance(book: &Book, values: &mut [i32]) -> bool {
    for value in values.iter_mut().rev() {
        if *value < book.hi {
            *value += 1;
            return true;
        }
        *value = book.lo;
    }
    false
}

/// Whether this is an instance whose body satisfies the model and whose head does not.
fn broken(clause: &Clause, constraints: &[Node], values: &[i32]) -> bool {
    clause.constraint.holds(values)
        && clause.body.as_ref().is_none_or(|body| satisfies(body, constraints, values))
        && !satisfies(&clause.head, constraints, values)
}

fn satisfies(atom: &Atom, constraints: &[Node], values: &[i32]) -> bool {
    let mut places = [0; 8];
    for (place, value) in places.iter_mut().zip(atom.places(values)) {
        *place = value;
    }
    constraints[atom.relation].holds(&places[..atom.arguments.len()])
}
