//! The proved kit, called from Rust. `include/ruahmitz.h` says what each call takes and gives back; here a slice stands for each
//! pointer with its count, so that what the header asks of a caller holds of itself.

/// The number of the answer, 0 for accepted or written, and its place (the length, where something was written).
#[derive(Clone, Copy, Debug, PartialEq, Eq)]
pub struct Answer {
    pub number: u32,
    pub place: u64,
}

/// The answer of the model check: how many assignments were examined, and the clause and values of the first broken instance.
#[derive(Clone, Copy, Debug, PartialEq, Eq)]
pub struct ModelAnswer {
    pub number: u32,
    pub place: u64,
    pub count: u64,
    pub clause: u64,
    pub values: [i32; 16],
}

/// A part of a book: where it starts and how long it is; both 0 for an empty one.
#[derive(Clone, Copy, Debug, PartialEq, Eq)]
pub struct Part {
    pub start: u64,
    pub length: usize,
}

/// What stands behind a pointer before a call. Each call writes through every pointer; where one did not, this would show.
const UNWRITTEN: u64 = u64::MAX;

/// A check of a list, as C has it.
type Check = unsafe extern "C" fn(
    book: *const u8,
    n: usize,
    list: *const i32,
    count: usize,
    relation: u64,
    values: *const i32,
    value_count: usize,
    place: *mut u64,
) -> u32;

/// A conversion of a list, as C has it.
type Conversion = unsafe extern "C" fn(
    book: *const u8,
    n: usize,
    list: *const i32,
    count: usize,
    relation: u64,
    values: *const i32,
    value_count: usize,
    room: *mut i32,
    size: usize,
    place: *mut u64,
) -> u32;

mod c {
    extern "C" {
        pub fn ruahmitz_book(book: *const u8, n: usize, place: *mut u64) -> u32;
        pub fn ruahmitz_constraint(book: *const u8, n: usize, clause: u64, start: *mut u64) -> usize;
        pub fn ruahmitz_text(book: *const u8, n: usize, room: *mut u8, size: usize, place: *mut u64) -> u32;
        pub fn ruahmitz_derivation(
            book: *const u8,
            n: usize,
            list: *const i32,
            count: usize,
            relation: u64,
            values: *const i32,
            value_count: usize,
            place: *mut u64,
        ) -> u32;
        pub fn ruahmitz_trace(
            book: *const u8,
            n: usize,
            list: *const i32,
            count: usize,
            relation: u64,
            values: *const i32,
            value_count: usize,
            place: *mut u64,
        ) -> u32;
        pub fn ruahmitz_to_trace(
            book: *const u8,
            n: usize,
            list: *const i32,
            count: usize,
            relation: u64,
            values: *const i32,
            value_count: usize,
            room: *mut i32,
            size: usize,
            place: *mut u64,
        ) -> u32;
        pub fn ruahmitz_to_derivation(
            book: *const u8,
            n: usize,
            list: *const i32,
            count: usize,
            relation: u64,
            values: *const i32,
            value_count: usize,
            room: *mut i32,
            size: usize,
            place: *mut u64,
        ) -> u32;
        pub fn ruahmitz_model(
            book: *const u8,
            n: usize,
            model: *const u8,
            size: usize,
            place: *mut u64,
            count: *mut u64,
            clause: *mut u64,
            values: *mut i32,
        ) -> u32;
    }
}

/// Reads a book.
pub fn book(book: &[u8]) -> Answer {
    let mut place = UNWRITTEN;
    let number = unsafe { c::ruahmitz_book(book.as_ptr(), book.len(), &mut place) };
    Answer { number, place }
}

/// The constraint of a numbered clause, as a part of the book.
pub fn constraint(book: &[u8], clause: u64) -> Part {
    let mut start = UNWRITTEN;
    let length = unsafe { c::ruahmitz_constraint(book.as_ptr(), book.len(), clause, &mut start) };
    Part { start, length }
}

/// Prints the transition system into the room.
pub fn text(book: &[u8], room: &mut [u8]) -> Answer {
    let mut place = UNWRITTEN;
    let number = unsafe { c::ruahmitz_text(book.as_ptr(), book.len(), room.as_mut_ptr(), room.len(), &mut place) };
    Answer { number, place }
}

/// Makes a check of a list.
fn check(call: Check, book: &[u8], list: &[i32], relation: u64, values: &[i32]) -> Answer {
    let mut place = UNWRITTEN;
    let (n, count, value_count) = (book.len(), list.len(), values.len());
    let number = unsafe { call(book.as_ptr(), n, list.as_ptr(), count, relation, values.as_ptr(), value_count, &mut place) };
    Answer { number, place }
}

/// Whether the list is a derivation of the goal.
pub fn derivation(book: &[u8], list: &[i32], relation: u64, values: &[i32]) -> Answer {
    check(c::ruahmitz_derivation, book, list, relation, values)
}

/// Whether the list is a trace that reaches the goal.
pub fn trace(book: &[u8], list: &[i32], relation: u64, values: &[i32]) -> Answer {
    check(c::ruahmitz_trace, book, list, relation, values)
}

/// Makes a conversion of a list.
fn convert(call: Conversion, book: &[u8], list: &[i32], relation: u64, values: &[i32], room: &mut [i32]) -> Answer {
    let mut place = UNWRITTEN;
    let (n, count, value_count, size) = (book.len(), list.len(), values.len(), room.len());
    let (book, list, values, room) = (book.as_ptr(), list.as_ptr(), values.as_ptr(), room.as_mut_ptr());
    let number = unsafe { call(book, n, list, count, relation, values, value_count, room, size, &mut place) };
    Answer { number, place }
}

/// Writes a derivation's trace into the room.
pub fn to_trace(book: &[u8], list: &[i32], relation: u64, values: &[i32], room: &mut [i32]) -> Answer {
    convert(c::ruahmitz_to_trace, book, list, relation, values, room)
}

/// Writes a trace's derivation into the room.
pub fn to_derivation(book: &[u8], list: &[i32], relation: u64, values: &[i32], room: &mut [i32]) -> Answer {
    convert(c::ruahmitz_to_derivation, book, list, relation, values, room)
}

/// Whether the model excludes the query.
pub fn model(book: &[u8], model: &[u8]) -> ModelAnswer {
    let (mut place, mut count, mut clause) = (UNWRITTEN, UNWRITTEN, UNWRITTEN);
    let mut values = [i32::MIN; 16];
    let number = unsafe {
        c::ruahmitz_model(
            book.as_ptr(),
            book.len(),
            model.as_ptr(),
            model.len(),
            &mut place,
            &mut count,
            &mut clause,
            values.as_mut_ptr(),
        )
    };
    ModelAnswer { number, place, count, clause, values }
}
