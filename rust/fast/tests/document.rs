//! Document 01's cases for lists and models.

use ruahmitz_fast::{derivation, model, to_derivation, to_trace, trace, Answer, ModelAnswer};

/// Book B, and the byte where its window's upper end stands.
const B: [u8; 60] = [
    1, 0, 1, 255, 0, 0, 2, 1, 0, 0, 0, 0, 0, 2, 0, 0, 0, 1, 2, 1, 0, 255, 255, 1, 0, 0, 0, 1, 0, 0, 1, 2, 1, 0, 253, 255, 255,
    255, 2, 0, 13, 0, 27, 0, 0, 0, 0, 0, 3, 0, 0, 0, 38, 0, 3, 0, 2, 1, 1, 0,
];
const HI: usize = 48;
const D: [i32; 13] = [0, 0, 1, 0, 1, 1, 1, 2, 1, 2, 3, 2, 3];
const T: [i32; 31] = [0, 0, 0, 0, 0, 1, 0, 0, 1, 0, 1, 1, 0, 1, 1, 1, 2, 1, 0, 2, 1, 2, 3, 1, 0, 3, 2, 3, 1, 1, 3];

fn at(number: u32, place: u64) -> Answer {
    Answer { number, place }
}

/// B with one byte changed.
fn b_with(byte: usize, value: u8) -> [u8; 60] {
    let mut changed = B;
    changed[byte] = value;
    changed
}

#[test]
fn derivations() {
    assert_eq!(derivation(&B, &D, 1, &[]), at(0, 0));
    assert_eq!(derivation(&B, &D[..11], 1, &[]), at(17, 11));
    assert_eq!(derivation(&B, &[0, 0, 1, 1, 2], 1, &[]), at(16, 2));
    assert_eq!(derivation(&b_with(HI, 2), &D, 1, &[]), at(14, 10));
    assert_eq!(derivation(&b_with(58, 2), &D, 1, &[]), at(2, 44));
}

#[test]
fn traces() {
    assert_eq!(trace(&B, &T, 1, &[]), at(0, 0));
    assert_eq!(trace(&B, &T[..3], 1, &[]), at(17, 3));
    let mut other = T;
    other[6] = 1;
    assert_eq!(trace(&B, &other, 1, &[]), at(19, 6));
}

#[test]
fn over_and_back() {
    let mut room = [7; 32];
    assert_eq!(to_trace(&B, &D, 1, &[], &mut room[..30]), at(9, 31));
    assert_eq!(room, [7; 32]);
    assert_eq!(to_trace(&B, &D, 1, &[], &mut room), at(0, 31));
    assert_eq!((&room[..31], room[31]), (&T[..], 7));
    let mut back = [7; 13];
    assert_eq!(to_derivation(&B, &T, 1, &[], &mut back), at(0, 13));
    assert_eq!(back, D);
}

#[test]
fn models() {
    let mut values = [0; 16];
    values[0] = 3;
    let plain = ModelAnswer { number: 0, place: 0, count: 15, clause: 0, values: [0; 16] };
    assert_eq!(model(&b_with(HI, 2), &[0, 3, 0]), plain);
    assert_eq!(model(&B, &[0, 3, 0]), ModelAnswer { number: 25, place: 24, count: 24, clause: 2, values });
    assert_eq!(model(&B, &[0, 0]), ModelAnswer { number: 23, place: 1, count: 0, ..plain });
}
