//! Every call on document 01's book B and on its book of 23 bytes: what comes back, and every number of the room.
use ruahmitz_kit::{self as kit, Answer, ModelAnswer, Part};

const B: [u8; 60] = [
    1, 0, // arities
    1, 255, 0, 0, 2, 1, 0, 0, 0, 0, 0, // clause 0
    2, 0, 0, 0, 1, 2, 1, 0, 255, 255, 1, 0, 0, 0, // clause 1
    1, 0, 0, 1, 2, 1, 0, 253, 255, 255, 255, // clause 2
    2, 0, 13, 0, 27, 0, // index
    0, 0, 0, 0, 3, 0, 0, 0, 38, 0, 3, 0, 2, 1, 1, 0, // trailer
];
const HI: usize = 48;
const D: [i32; 13] = [0, 0, 1, 0, 1, 1, 1, 2, 1, 2, 3, 2, 3];
const T: [i32; 31] = [0, 0, 0, 0, 0, 1, 0, 0, 1, 0, 1, 1, 0, 1, 1, 1, 2, 1, 0, 2, 1, 2, 3, 1, 0, 3, 2, 3, 1, 1, 3];

const SMALL: [u8; 23] = [0, 0, 255, 0, 0, 1, 0, 0, 0, 0, 0, 0, 0, 0, 0, 5, 0, 1, 0, 1, 0, 1, 0];
const SMALL_TEXT: &str = "(declare-fun l0 () Bool)
(declare-fun l0n () Bool)
(define-fun sl0 () Bool (! l0 :next l0n))
(define-fun init () Bool (! (and true (not l0)) :init true))
(define-fun trans () Bool (! (or false false (and true true l0n)) :trans true))
(define-fun prop () Bool (! (not l0) :invar-property 0))
";

/// B with one byte changed.
fn with(at: usize, byte: u8) -> Vec<u8> {
    let mut b = B.to_vec();
    b[at] = byte;
    b
}

/// T with one number changed.
fn trace_with(at: usize, number: i32) -> Vec<i32> {
    let mut t = T.to_vec();
    t[at] = number;
    t
}

fn answer(number: u32, place: u64) -> Answer {
    Answer { number, place }
}

/// What a room of `size` holds after `written` was put into it; before, it held `mark` throughout.
fn room_after<N: Copy>(size: usize, mark: N, written: &[N]) -> Vec<N> {
    let mut room = vec![mark; size];
    room[..written.len()].copy_from_slice(written);
    room
}

#[test]
fn books() {
    let rows = [
        (B.to_vec(), 0, 0),
        (with(58, 2), 2, 44),
        (with(0, 9), 3, 0),
        (with(40, 14), 4, 40),
        (with(5, 1), 6, 5),
        (SMALL.to_vec(), 0, 0),
        (vec![], 1, 0),
    ];
    for (i, (book, number, place)) in rows.iter().enumerate() {
        assert_eq!(kit::book(book), answer(*number, *place), "row {i}");
    }
}

#[test]
fn constraints() {
    let rows = [
        (B.to_vec(), 0, 6, 7),
        (B.to_vec(), 1, 18, 9),
        (B.to_vec(), 2, 31, 7),
        (B.to_vec(), 3, 0, 0),
        (B.to_vec(), 1 << 63, 0, 0),
        (with(58, 2), 0, 0, 0),
    ];
    for (i, (book, clause, start, length)) in rows.iter().enumerate() {
        assert_eq!(kit::constraint(book, *clause), Part { start: *start, length: *length }, "row {i}");
    }
}

#[test]
fn lists() {
    type Check = fn(&[u8], &[i32], u64, &[i32]) -> Answer;
    type Row = (Check, Vec<u8>, Vec<i32>, u64, u32, u64);
    let rows: [Row; 10] = [
        (kit::derivation, B.to_vec(), D.to_vec(), 1, 0, 0),
        (kit::derivation, B.to_vec(), D[..11].to_vec(), 1, 17, 11),
        (kit::derivation, B.to_vec(), vec![0, 0, 1, 1, 2], 1, 16, 2),
        (kit::derivation, with(HI, 2), D.to_vec(), 1, 14, 10),
        (kit::derivation, B.to_vec(), D.to_vec(), (1 << 32) + 1, 10, 0),
        (kit::derivation, with(58, 2), D.to_vec(), 1, 2, 44),
        (kit::trace, B.to_vec(), T.to_vec(), 1, 0, 0),
        (kit::trace, B.to_vec(), trace_with(6, 1), 1, 19, 6),
        (kit::trace, B.to_vec(), vec![0, 0, 0], 1, 17, 3),
        (kit::trace, B.to_vec(), T.to_vec(), (1 << 32) + 1, 10, 0),
    ];
    for (i, (check, book, list, relation, number, place)) in rows.iter().enumerate() {
        assert_eq!(check(book, list, *relation, &[]), answer(*number, *place), "row {i}");
    }
}

#[test]
fn goal_values() {
    for (value, number, place) in [(3, 0, 0), (2, 17, 11)] {
        assert_eq!(kit::derivation(&B, &D[..11], 0, &[value]), answer(number, place), "value {value}");
        assert_eq!(kit::derivation(&B, &D[..11], 0, &[value, value]), answer(10, 0), "value {value} twice");
    }
}

#[test]
fn conversions() {
    type Convert = fn(&[u8], &[i32], u64, &[i32], &mut [i32]) -> Answer;
    type Row<'a> = (Convert, Vec<u8>, &'a [i32], usize, u32, u64, &'a [i32]);
    let rows: [Row; 8] = [
        (kit::to_trace, B.to_vec(), &D, 31, 0, 31, &T),
        (kit::to_trace, B.to_vec(), &D, 40, 0, 31, &T),
        (kit::to_trace, B.to_vec(), &D, 30, 9, 31, &[]),
        (kit::to_trace, B.to_vec(), &D[..11], 40, 17, 11, &[]),
        (kit::to_derivation, B.to_vec(), &T, 13, 0, 13, &D),
        (kit::to_derivation, B.to_vec(), &T, 20, 0, 13, &D),
        (kit::to_derivation, B.to_vec(), &T, 12, 9, 13, &[]),
        (kit::to_derivation, with(58, 2), &T, 20, 2, 44, &[]),
    ];
    for (i, (convert, book, list, size, number, place, written)) in rows.iter().enumerate() {
        let mut room = vec![-7; *size];
        assert_eq!(convert(book, list, 1, &[], &mut room), answer(*number, *place), "row {i}");
        assert_eq!(room, room_after(*size, -7, written), "row {i}: the room");
    }
}

#[test]
fn texts() {
    let text = SMALL_TEXT.as_bytes();
    let n = text.len();
    type Row<'a> = (&'a [u8], usize, u32, usize, &'a [u8]);
    let rows: [Row; 5] = [
        (&SMALL, n, 0, n, text),
        (&SMALL, n + 9, 0, n, text),
        (&SMALL, n - 1, 9, n, &[]),
        (&SMALL, 0, 9, n, &[]),
        (&[], n, 1, 0, &[]),
    ];
    for (i, (book, size, number, place, written)) in rows.iter().enumerate() {
        let mut room = vec![b'~'; *size];
        assert_eq!(kit::text(book, &mut room), answer(*number, *place as u64), "row {i}");
        assert_eq!(room, room_after(*size, b'~', written), "row {i}: the room");
    }
}

#[test]
fn part_of_clause_0() {
    let part = "(and true (<= 0 y0_0) (<= y0_0 3) (= (+ 0 0 (* 1 y0_0)) 0) l0n (= p0_0n y0_0) (= l1n l1))";
    let mut room = vec![0; 65_536];
    let Answer { number, place } = kit::text(&B, &mut room);
    let text = String::from_utf8_lossy(&room[..place as usize]);
    assert_eq!(number, 0);
    assert_eq!(text.matches(part).count(), 1, "{text}");
}

#[test]
fn models() {
    let mut three = [0; 16];
    three[0] = 3;
    let none = [0; 16];
    type Row<'a> = (Vec<u8>, &'a [u8], u32, u64, u64, u64, [i32; 16]);
    let rows: [Row; 5] = [
        (B.to_vec(), &[0, 3, 0], 25, 24, 24, 2, three),
        (with(HI, 2), &[0, 3, 0], 0, 0, 15, 0, none),
        (B.to_vec(), &[0, 0], 23, 1, 0, 0, none),
        (B.to_vec(), &[0, 3], 22, 2, 0, 0, none),
        (with(58, 2), &[0, 3, 0], 2, 44, 0, 0, none),
    ];
    for (i, (book, model, number, place, count, clause, values)) in rows.iter().enumerate() {
        let due = ModelAnswer { number: *number, place: *place, count: *count, clause: *clause, values: *values };
        assert_eq!(kit::model(book, model), due, "row {i}");
    }
}
