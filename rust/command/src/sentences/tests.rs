use super::*;
use crate::bytes::{Bytes, Form};
use crate::lists::{Goal, List};

const BOOK: &[u8] = b"01 00 | 01 FF 00 00 02 01 00 00 00 00 00 | 02 00 00 00 01 02 01 00 FF FF 01 00 00 00 |
01 00 00 01 02 01 00 FD FF FF FF | 02 00 0D 00 1B 00 | 00 00 00 00 03 00 00 00 26 00 03 00 02 01 01 00";

fn line(kind: Kind, number: u32, place: u64, list: &str, goal: &str) -> String {
    let inputs = Inputs {
        book: Bytes::read("b".into(), BOOK.into(), Form::Any).unwrap(),
        model: Bytes::read("m".into(), b"00 03 00".into(), Form::Any).unwrap(),
        list: List::read("l".into(), list.into()).unwrap(),
        goal: Goal::read(goal).unwrap(),
        clause: 0,
    };
    let (clause, mut values) = (if number == 25 { 2 } else { 0 }, [0; 16]);
    values[0] = 3;
    refused(&Case { kind, inputs: &inputs, number, place, clause, values })
}

/// The numbers that a command can be refused with, as document 01 has them.
fn numbers(kind: Kind) -> Vec<u32> {
    let more: &[u32] = match kind {
        Kind::Check | Kind::Constraint => &[],
        Kind::Print => &[9],
        Kind::Derivation => &[10, 11, 12, 13, 14, 15, 16, 17],
        Kind::Trace => &[10, 11, 12, 13, 14, 15, 16, 17, 18, 19],
        Kind::Model => &[21, 22, 23, 24, 25],
        Kind::ToTrace => &[9, 10, 11, 12, 13, 14, 15, 16, 17, 20],
        Kind::ToDerivation => &[9, 10, 11, 12, 13, 14, 15, 16, 17, 18, 19],
    };
    (1..=8).chain(more.iter().copied()).collect()
}

#[test]
fn every_number_of_every_command_has_a_sentence() {
    let mut seen = [false; 26];
    for task in &crate::tasks::TASKS {
        for number in numbers(task.kind) {
            let line = line(task.kind, number, 1, "0 0 0, 0 0 1 0 0", "1");
            let words = line.strip_prefix(&format!("refused {number} at 1: ")).unwrap();
            assert!(words.len() > 20 && words.lines().count() == 1 && words.ends_with('\n'), "{line}");
            assert_eq!(words.starts_with("the book is refused: "), number <= 8, "{line}");
            assert_eq!(words.starts_with("of the model: "), (21..=23).contains(&number), "{line}");
            seen[number as usize] = true;
        }
    }
    assert!(seen[1..].iter().all(|seen| *seen));
    assert_eq!(line(Kind::Check, 26, 5, "", "1"), "refused 26 at 5\n");
}

/// Compares a line with its words and, where they are not 0, line and column of what it points to.
fn same(line: &str, number: u32, place: u64, words: &str, (file, row, column): (&str, u32, u32)) {
    let spot = if row == 0 { String::new() } else { format!(" ({file}, line {row}, column {column})") };
    assert_eq!(line, format!("refused {number} at {place}: {words}{spot}\n"));
}

const NODE: &str =
    "an unknown kind, a node too many (over 64) or too deep (over 16), a divisor 0, or a remainder not below its divisor";

#[test]
fn book_sentences() {
    let fields =
        "window 0 to 3, 2 relations, 3 clauses, query relation 1, index start 38, last bytes [1, 0], for 60 bytes in all";
    let trailer = format!("a field of its trailer, the 16 bytes from byte 44 on, is against its rule: {fields}");
    for (number, place, words, (row, column)) in [
        (1, 0, "it has 60 bytes, and a book has 16 to 60,000", (0, 0)),
        (2, 44, &trailer, (2, 56)),
        (3, 1, "byte 1 is 0, the arity of relation 1; an arity is 0 to 8, and 0 for the query relation, 1", (1, 4)),
        (4, 40, "the index entry at byte 40 says that clause 1 starts at byte 13, but reading stands elsewhere", (2, 42)),
        (4, 37, "bytes are left between the last clause and the index, from byte 37 on", (2, 31)),
        (5, 4, "byte 4 is 0, and there is no such relation", (1, 15)),
        (6, 5, "byte 5 is 0, over 16 variables or a variable that the clause does not have", (1, 18)),
        (7, 6, &format!("a constraint has at byte 6 {NODE}"), (1, 21)),
        (8, 38, "a clause's record runs into the index, which starts at byte 38", (0, 0)),
    ] {
        for task in &crate::tasks::TASKS {
            let line = line(task.kind, number, place, "", "1");
            same(&line, number, place, &format!("the book is refused: {words}"), ("b", row, column));
        }
    }
}

const DERIVATIONS: &[Kind] = &[Kind::Derivation, Kind::ToTrace];
const TRACES: &[Kind] = &[Kind::Trace, Kind::ToDerivation];
const LISTS: &[Kind] = &[Kind::Derivation, Kind::ToTrace, Kind::Trace, Kind::ToDerivation];

/// Commands, number, place, words, and line and column of what is pointed to in the list of the test below.
type Row = (&'static [Kind], u32, u64, &'static str, (u32, u32));

#[rustfmt::skip]
const LIST_SENTENCES: &[Row] = &[
    (&[Kind::Print], 9, 70000, "the room that was lent is too short, and 70000 bytes are needed", (0, 0)),
    (&[Kind::ToTrace, Kind::ToDerivation], 9, 31, "the room that was lent is too short, and 31 numbers are needed", (0, 0)),
    (LISTS, 11, 0, "the list has 6 numbers, and a list has 1 to 1,000,000", (0, 0)),
    (LISTS, 12, 3, "the step that begins at number 3 of the list names clause 9, which the book does not have", (2, 1)),
    (DERIVATIONS, 13, 0, "the list ends inside the step that begins at number 0 of the list", (1, 1)),
    (TRACES, 13, 0, "the list ends inside the first state, which begins at number 0", (1, 1)),
    (TRACES, 13, 3, "the list ends inside the step that begins at number 3 of the list, its next state included", (2, 1)),
    (DERIVATIONS, 14, 2, "number 2 of the list, 7, a value of a step, is outside the window 0 to 3", (1, 5)),
    (TRACES, 14, 2, "number 2 of the list, 7, a place of the first state, is outside the window 0 to 3", (1, 5)),
    (TRACES, 14, 5, "number 5 of the list, 7, a value of a step, is outside the window 0 to 3", (2, 5)),
    (LISTS, 15, 1, "the step that begins at number 1 of the list makes the constraint of clause 0 false", (1, 3)),
    (DERIVATIONS, 16, 0,
        "the first step is by clause 0, which has a body, and a derivation begins with a clause without one", (1, 1)),
    (DERIVATIONS, 16, 1,
        "the step that begins at number 1 of the list is by clause 0, which has no body, and only the first step may be", (1, 3)),
    (DERIVATIONS, 16, 4, "the step that begins at number 4 of the list has a body that the fact before it does not meet", (2, 3)),
    (TRACES, 16, 4, "the step that begins at number 4 of the list has a body that the state before it does not meet", (2, 3)),
    (DERIVATIONS, 17, 6, "the last head is not the goal; the list has 6 numbers", (0, 0)),
    (TRACES, 17, 6, "the last state does not meet the goal; the list has 6 numbers", (0, 0)),
    (TRACES, 18, 2, "number 2 of the list, 7, the flag of relation 2 in the first state, is not 0", (1, 5)),
    (TRACES, 19, 3, "number 3 of the list, 9, is the first that differs from the next state that is due", (2, 1)),
    (&[Kind::ToTrace], 20, 1000001, "the trace would have 1000001 numbers, and a list has 1 to 1,000,000", (0, 0)),
];

#[test]
fn list_sentences() {
    for (kinds, number, place, words, (row, column)) in LIST_SENTENCES {
        for kind in *kinds {
            same(&line(*kind, *number, *place, "0 0 7\n9 1 7", "1"), *number, *place, words, ("l", *row, *column));
        }
    }
}

#[test]
fn goal_sentences() {
    for (goal, words) in [
        ("2", "the goal's relation is 2, and the book has 2 relations, counted from 0"),
        ("18446744073709551615", "the goal's relation is 18446744073709551615, and the book has 2 relations, counted from 0"),
        ("0", "the goal has 0 values, and relation 0 has 1 place"),
        ("1:5", "the goal has 1 value, and relation 1 has 0 places"),
    ] {
        same(&line(Kind::Trace, 10, 0, "0", goal), 10, 0, words, ("", 0, 0));
    }
}

#[test]
fn model_sentences() {
    for (number, place, words, column) in [
        (21, 1, &*format!("of the model: a constraint has at byte 1 {NODE}"), 4),
        (22, 3, "of the model: it ends after 3 bytes, before its last constraint does", 0),
        (22, 2, "of the model: bytes are left after its last constraint, from byte 2 on", 7),
        (23, 1, "of the model: the query's constraint, which starts at byte 1, is true, and it must be false", 4),
        (24, 0, "the clauses have over 1,000,000 assignments in all, and no more are examined", 0),
        (25, 24, "the instance of clause 2 with y0 = 3 breaks the model, the last of 24 assignments examined", 0),
    ] {
        same(&line(Kind::Model, number, place, "", "1"), number, place, words, ("m", u32::from(column > 0), column));
    }
}
