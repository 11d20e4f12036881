//! A second implementation of the kit, in plain Rust. `include/ruahmitz.h` says what each call takes and gives back.
//! It was written from the statement of the rules alone, so that a difference from the proved kit points at a mistake in one of them.

mod book;
mod lists;
mod models;
mod text;

pub use lists::{derivation, to_derivation, to_trace, trace};
pub use models::model;
pub use text::text;

use book::Book;

/// The number of the answer, 0 for accepted or written, and its place (the length, where something was written).
#[derive(Clone, Copy, Debug, PartialEq, Eq)]
pub struct Answer {
    pub number: u32,
    pub place: u64,
}

impl Answer {
    fn new(number: u32, place: usize) -> Answer {
        Answer { number, place: place as u64 }
    }
}

/// The answer of the model check: how many assignments were examined, and the clause and values of the first broken instance.
#[derive(Clone, Copy, Debug, PartialEq, Eq)]
pub struct ModelAnswer {
    pub number: u32,
    pub place: u64,
    pub count: u64,
    pub clause: u64,
    pub values: [i32; 16],
}

/// A part of a book: where it starts and how long it is; both 0 for an empty one.
#[derive(Clone, Copy, Debug, PartialEq, Eq)]
pub struct Part {
    pub start: u64,
    pub length: usize,
}

/// Reads a book.
pub fn book(bytes: &[u8]) -> Answer {
    match Book::read(bytes) {
        Ok(_) => Answer::new(0, 0),
        Err(refusal) => refusal,
    }
}

/// The constraint of a numbered clause, as a part of the book.
pub fn constraint(bytes: &[u8], clause: u64) -> Part {
    let book = Book::read(bytes).ok();
    let found = book.as_ref().and_then(|book| book.clauses.get(usize::try_from(clause).ok()?));
    found.map_or(Part { start: 0, length: 0 }, |clause| clause.part)
}
