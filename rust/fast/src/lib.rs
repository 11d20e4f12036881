//! The calls on lists and models in safe Rust written for speed: what the kit's times are set against beside plain Rust. The comparison
//! holds it to the judge.
//!
//! A book is read once a call into flat tables, a constraint becomes a list of tests with two ways out of each, and no step allocates.
#![forbid(unsafe_code)]

mod book;
mod convert;
mod lists;
mod models;
mod traces;
mod truth;

pub use convert::{to_derivation, to_trace};
pub use lists::derivation;
pub use models::model;
pub use traces::trace;

/// The number of the answer, 0 for accepted or written, and its place (the length, where something was written).
#[derive(Clone, Copy, Debug, PartialEq, Eq)]
pub struct Answer {
    pub number: u32,
    pub place: u64,
}

impl Answer {
    /// Cold, so that what goes on after a test stands first in the machine code.
    #[cold]
    fn refused(number: u32, place: usize) -> Answer {
        Answer { number, place: place as u64 }
    }

    fn of(result: Result<usize, Answer>) -> Answer {
        result.map_or_else(|refusal| refusal, |length| Answer { number: 0, place: length as u64 })
    }
}

/// The answer of the model check: how many assignments were examined, and the clause and values of the first broken instance.
#[derive(Clone, Copy, Debug, PartialEq, Eq)]
pub struct ModelAnswer {
    pub number: u32,
    pub place: u64,
    pub count: u64,
    pub clause: u64,
    pub values: [i32; 16],
}

/// The values of a clause's variables, by number; what stands after the last one does not count. As an array of sixteen, with a
/// variable's number cut to four bits, it is read without a test of the bounds.
type Values = [i32; 16];
