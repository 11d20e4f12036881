//! The cases that document 01 gives, and the errors that it warns of.

use ruahmitz_judge::{book, constraint, derivation, model, text, to_derivation, to_trace, trace, Answer, ModelAnswer, Part};

/// Book B, and the byte where its window's upper end stands.
const B: [u8; 60] = [
    1, 0, 1, 255, 0, 0, 2, 1, 0, 0, 0, 0, 0, 2, 0, 0, 0, 1, 2, 1, 0, 255, 255, 1, 0, 0, 0, 1, 0, 0, 1, 2, 1, 0, 253, 255, 255,
    255, 2, 0, 13, 0, 27, 0, 0, 0, 0, 0, 3, 0, 0, 0, 38, 0, 3, 0, 2, 1, 1, 0,
];
const HI: usize = 48;
const D: [i32; 13] = [0, 0, 1, 0, 1, 1, 1, 2, 1, 2, 3, 2, 3];
const T: [i32; 31] = [0, 0, 0, 0, 0, 1, 0, 0, 1, 0, 1, 1, 0, 1, 1, 1, 2, 1, 0, 2, 1, 2, 3, 1, 0, 3, 2, 3, 1, 1, 3];

fn at(number: u32, place: u64) -> Answer {
    Answer { number, place }
}

fn b_with(byte: usize, value: u8) -> [u8; 60] {
    let mut changed = B;
    changed[byte] = value;
    changed
}

fn trailer(lo: i32, hi: i32, index: u16, clauses: u16, relations: u8, query: u8) -> Vec<u8> {
    let mut bytes = [lo.to_le_bytes(), hi.to_le_bytes()].concat();
    bytes.extend(index.to_le_bytes());
    bytes.extend(clauses.to_le_bytes());
    bytes.extend([relations, query, 1, 0]);
    bytes
}

/// A book of these records over relations with these arities; the last relation is the query.
fn make(lo: i32, hi: i32, arities: &[u8], records: &[&[u8]]) -> Vec<u8> {
    let mut bytes = arities.to_vec();
    let mut index = Vec::new();
    for record in records {
        index.extend((bytes.len() as u16).to_le_bytes());
        bytes.extend_from_slice(record);
    }
    let start = bytes.len() as u16;
    bytes.extend(index);
    bytes.extend(trailer(lo, hi, start, records.len() as u16, arities.len() as u8, arities.len() as u8 - 1));
    bytes
}

fn accepted(examined: u64) -> ModelAnswer {
    ModelAnswer { number: 0, place: 0, count: examined, clause: 0, values: [0; 16] }
}

#[test]
fn book_b() {
    assert_eq!(book(&B), at(0, 0));
    assert_eq!(book(&b_with(58, 2)), at(2, 44));
    assert_eq!(book(&b_with(0, 9)), at(3, 0));
    assert_eq!(book(&b_with(40, 14)), at(4, 40));
    assert_eq!(book(&b_with(5, 1)), at(6, 5));
    assert_eq!(book(&B[..15]), at(1, 0));
    assert_eq!(book(&vec![0; 60_001]), at(1, 0));
    assert_eq!(book(&vec![0; 60_000]), at(2, 59_984));
}

#[test]
fn derivation_d() {
    assert_eq!(derivation(&B, &D, 1, &[]), at(0, 0));
    assert_eq!(derivation(&B, &D[..11], 1, &[]), at(17, 11));
    assert_eq!(derivation(&B, &[0, 0, 1, 1, 2], 1, &[]), at(16, 2));
    assert_eq!(derivation(&b_with(HI, 2), &D, 1, &[]), at(14, 10));
    assert_eq!(derivation(&B, &D, 2, &[]), at(10, 0));
    assert_eq!(derivation(&B, &D, 1, &[0]), at(10, 0));
    assert_eq!(derivation(&B, &D, 1 << 32 | 1, &[]), at(10, 0));
    assert_eq!(derivation(&B, &[], 1, &[]), at(11, 0));
    assert_eq!(derivation(&B, &D[..12], 1, &[]), at(13, 11));
    assert_eq!(derivation(&B, &D[..2], 0, &[0]), at(0, 0));
    assert_eq!(derivation(&B, &D[..2], 0, &[4]), at(17, 2));
    assert_eq!(derivation(&B, &[0, 0, 0, 0], 0, &[0]), at(16, 2));
    assert_eq!(derivation(&B, &[1, 0, 1], 0, &[1]), at(16, 0));
}

#[test]
fn trace_of_d() {
    assert_eq!(trace(&B, &T, 1, &[]), at(0, 0));
    let mut changed = T;
    changed[6] = 1;
    assert_eq!(trace(&B, &changed, 1, &[]), at(19, 6));
    assert_eq!(trace(&B, &[0, 0, 0], 1, &[]), at(17, 3));
    assert_eq!(trace(&B, &[0, 1, 9], 1, &[]), at(18, 1));
    assert_eq!(trace(&B, &[0, 0, 9], 1, &[]), at(14, 2));
    assert_eq!(trace(&B, &[0, 0], 1, &[]), at(13, 0));
    assert_eq!(trace(&B, &[0, 0, 0, 3], 1, &[]), at(12, 3));
    assert_eq!(trace(&B, &[0, 0, 0, 0, 1], 1, &[]), at(13, 3));
}

#[test]
fn conversions() {
    let mut room = [7; 40];
    assert_eq!(to_trace(&B, &D, 1, &[], &mut room[..30]), at(9, 31));
    assert_eq!(room, [7; 40]);
    assert_eq!(to_trace(&B, &D, 1, &[], &mut room), at(0, 31));
    assert_eq!(room[..31], T);
    assert_eq!(room[31..], [7; 9]);
    let mut room = [7; 20];
    assert_eq!(to_derivation(&B, &T, 1, &[], &mut room[..12]), at(9, 13));
    assert_eq!(room, [7; 20]);
    assert_eq!(to_derivation(&B, &T, 1, &[], &mut room), at(0, 13));
    assert_eq!(room[..13], D);
    assert_eq!(room[13..], [7; 7]);
}

#[test]
fn long_traces() {
    // One relation without places and two clauses: `r0` from nothing and from itself. A trace has 1 + 2 * steps numbers.
    let book = make(0, 0, &[0], &[&[0, 255, 0, 0], &[0, 0, 0, 0]]);
    let mut list = vec![1; 500_000];
    list[0] = 0;
    let mut room = vec![7; 1_000_000];
    assert_eq!(to_trace(&book, &list, 0, &[], &mut room), at(20, 1_000_001));
    assert_eq!(to_trace(&book, &list[1..], 0, &[], &mut room), at(16, 0));
    assert_eq!(to_trace(&book, &list[..499_999], 0, &[], &mut room), at(0, 999_999));
    assert_eq!(room[999_999], 7);
    let mut back = vec![7; 499_999];
    assert_eq!(to_derivation(&book, &room[..999_999], 0, &[], &mut back), at(0, 499_999));
    assert_eq!(back, list[..499_999]);
    assert_eq!(derivation(&book, &vec![0; 1_000_001], 0, &[]), at(11, 0));
}

#[test]
fn models_of_b() {
    let broken = model(&B, &[0, 3, 0]);
    assert_eq!((broken.number, broken.place, broken.count, broken.clause), (25, 24, 24, 2));
    assert_eq!(broken.values[..2], [3, 0]);
    assert_eq!(model(&b_with(HI, 2), &[0, 3, 0]), accepted(15));
    let refused = |bytes: &[u8], number, place| assert_eq!(model(&B, bytes), ModelAnswer { number, place, ..accepted(0) });
    refused(&[0, 0], 23, 1);
    refused(&[0, 3], 22, 2);
    refused(&[], 22, 0);
    refused(&[0, 3, 0, 0], 22, 3);
    refused(&[7, 3, 0], 21, 0);
    refused(&[6, 1, 0, 0, 0, 0, 0, 0, 0], 21, 7);
    refused(&[6, 1, 0, 0, 0, 0, 0, 1, 0, 1, 0], 21, 9);
    refused(&[6, 1, 0, 0, 0, 0, 0, 1, 0, 1], 22, 10);
}

#[test]
fn a_million_assignments() {
    let wide: &[u8] = &[2, 255, 0, 0];
    assert_eq!(model(&make(0, 999, &[0, 0], &[wide]), &[0, 3, 0]), accepted(1_000_000));
    let over = ModelAnswer { number: 24, ..accepted(0) };
    assert_eq!(model(&make(0, 999, &[0, 0], &[wide, &[0, 255, 0, 0]]), &[0, 3, 0]), over);
    assert_eq!(model(&make(i32::MIN, i32::MAX, &[0, 0], &[&[16, 255, 0, 0]]), &[0, 3, 0]), over);
}

#[test]
fn order_of_assignments() {
    // Over -1..1 the first pair with x + 2 y = 1 is (-1, 1): the first variable moves slowest.
    let book = make(-1, 1, &[0, 0], &[&[2, 255, 1, 2, 1, 0, 2, 0, 255, 255, 255, 255]]);
    let broken = model(&book, &[0, 3, 0]);
    assert_eq!((broken.number, broken.place, broken.count, broken.clause), (25, 3, 3, 0));
    assert_eq!(broken.values[..3], [-1, 1, 0]);
}

#[test]
fn remainder() {
    // The head is derived exactly when the value leaves 2 when divided by 3.
    let book = make(-9, 9, &[1, 0], &[&[1, 255, 0, 0, 6, 1, 0, 0, 0, 0, 0, 3, 0, 2, 0]]);
    assert_eq!(derivation(&book, &[0, 5], 0, &[5]), at(0, 0));
    assert_eq!(derivation(&book, &[0, -1], 0, &[-1]), at(15, 0));
    assert_eq!(derivation(&book, &[0, 4], 0, &[4]), at(15, 0));
}

#[test]
fn remainder_limits() {
    let fault = |d: u16, r: u16| {
        let record = [&[0, 255, 0, 6, 0, 0, 0, 0][..], &d.to_le_bytes(), &r.to_le_bytes()].concat();
        one_clause(&record)
    };
    assert_eq!(fault(0, 0), at(7, 9));
    assert_eq!(fault(3, 3), at(7, 11));
    assert_eq!(fault(3, 2), at(0, 0));
    assert_eq!(fault(65_535, 65_534), at(0, 0));
}

fn one_clause(record: &[u8]) -> Answer {
    book(&make(0, 0, &[0], &[record]))
}

#[test]
fn depth_and_nodes() {
    let chain = |nots: usize| [&[0, 255, 0][..], &vec![3; nots], &[0]].concat();
    assert_eq!(one_clause(&chain(15)), at(0, 0));
    assert_eq!(one_clause(&chain(16)), at(7, 20));
    let pair = [&[4][..], &full_tree(5), &full_tree(5)].concat();
    let with_not = [&[0, 255, 0, 3][..], &pair].concat();
    assert_eq!(pair.len(), 63);
    assert_eq!(one_clause(&with_not), at(0, 0));
    let two_nots = [&[0, 255, 0, 3, 3][..], &pair].concat();
    assert_eq!(one_clause(&two_nots), at(7, 68));
}

fn full_tree(depth: usize) -> Vec<u8> {
    match depth {
        1 => vec![0],
        _ => [&[4][..], &full_tree(depth - 1), &full_tree(depth - 1)].concat(),
    }
}

#[test]
fn records_and_index() {
    assert_eq!(one_clause(&[]), at(8, 1));
    assert_eq!(one_clause(&[17]), at(6, 1));
    assert_eq!(one_clause(&[0]), at(8, 2));
    assert_eq!(one_clause(&[0, 1]), at(5, 2));
    assert_eq!(one_clause(&[0, 255, 255]), at(5, 3));
    assert_eq!(one_clause(&[0, 255, 0, 7]), at(7, 4));
    assert_eq!(one_clause(&[0, 255, 0, 1, 0, 0, 0]), at(8, 8));
    assert_eq!(one_clause(&[0, 255, 0, 0, 0]), at(4, 5));
    assert_eq!(book(&[&[0, 0][..], &trailer(0, 0, 2, 0, 1, 0)].concat()), at(4, 1));
}

#[test]
fn parts_of_the_book() {
    assert_eq!(constraint(&B, 0), Part { start: 6, length: 7 });
    assert_eq!(constraint(&B, 1), Part { start: 18, length: 9 });
    assert_eq!(constraint(&B, 2), Part { start: 31, length: 7 });
    let empty = Part { start: 0, length: 0 };
    assert_eq!(constraint(&B, 3), empty);
    assert_eq!(constraint(&B, u64::MAX), empty);
    assert_eq!(constraint(&b_with(0, 9), 0), empty);
}

fn printed(book: &[u8]) -> String {
    let mut room = vec![b'#'; 70_000];
    let answer = text(book, &mut room);
    assert_eq!(answer.number, 0);
    let length = answer.place as usize;
    assert!(room[length..].iter().all(|&byte| byte == b'#'));
    assert_eq!(text(book, &mut room[..length - 1]), at(9, answer.place));
    assert_eq!(text(book, &mut []), at(9, answer.place));
    String::from_utf8(room[..length].to_vec()).unwrap()
}

#[test]
fn the_smallest_text() {
    let small = [0, 0, 255, 0, 0, 1, 0, 0, 0, 0, 0, 0, 0, 0, 0, 5, 0, 1, 0, 1, 0, 1, 0];
    let expected = "\
(declare-fun l0 () Bool)
(declare-fun l0n () Bool)
(define-fun sl0 () Bool (! l0 :next l0n))
(define-fun init () Bool (! (and true (not l0)) :init true))
(define-fun trans () Bool (! (or false false (and true true l0n)) :trans true))
(define-fun prop () Bool (! (not l0) :invar-property 0))
";
    assert_eq!(printed(&small), expected);
    assert_eq!(text(&small[1..], &mut []), at(2, 6));
}

#[test]
fn the_text_of_b() {
    let out = printed(&B);
    let lines: Vec<&str> = out.lines().collect();
    assert_eq!(
        lines[3..6],
        ["(declare-fun p0_0 () Int)", "(declare-fun p0_0n () Int)", "(define-fun sp0_0 () Int (! p0_0 :next p0_0n))",]
    );
    assert_eq!(
        lines[9..13].join(" "),
        "(declare-fun y0_0 () Int) (declare-fun y1_0 () Int) (declare-fun y1_1 () Int) (declare-fun y2_0 () Int)"
    );
    assert_eq!(lines[13], "(define-fun init () Bool (! (and true (not l0) (not l1) (<= 0 p0_0) (<= p0_0 3)) :init true))");
    let part = "(and true (<= 0 y0_0) (<= y0_0 3) (= (+ 0 0 (* 1 y0_0)) 0) l0n (= p0_0n y0_0) (= l1n l1))";
    assert!(lines[14].starts_with(&format!("(define-fun trans () Bool (! (or false false {part} (and true (<= 0 y1_0)")));
    assert!(
        lines[14].contains("(= (+ 0 1 (* 1 y1_0) (* (- 1) y1_1)) 0) l0 (= p0_0 y1_0) l0n (= p0_0n y1_1) (= l1n l1)) (and true")
    );
    assert!(lines[14].ends_with("(= (+ 0 (- 3) (* 1 y2_0)) 0) l0 (= p0_0 y2_0) l1n (= l0n l0) (= p0_0n p0_0))) :trans true))"));
    assert_eq!(lines[15], "(define-fun prop () Bool (! (not l1) :invar-property 0))");
    assert_eq!(lines.len(), 16);
}

#[test]
fn kinds_and_numbers_in_text() {
    let constraint =
        [&[5, 3, 1][..], &[0, 128], &i32::MIN.to_le_bytes(), &[4, 0, 6], &[0, 0], &i32::MAX.to_le_bytes(), &[255, 255, 254, 255]];
    let record = [&[1, 255, 0][..], &constraint.concat()].concat();
    let out = printed(&make(i32::MIN, i32::MAX, &[0], &[&record]));
    let sum = "(+ 0 2147483647 (* 0 y0_0))";
    let expected = format!(
        "(or (not (<= (+ 0 (- 2147483648) (* (- 32768) y0_0)) 0)) (and true (and (<= 0 {sum}) (= (mod {sum} 65535) 65534))))"
    );
    assert!(out.contains(&format!("(<= (- 2147483648) y0_0) (<= y0_0 2147483647) {expected} l0n)")));
}

/// Relation 0 with one place, 1 without, the query 2. Clauses: 0 sets 0(x); 1 takes 0(x) to 1; 2 takes 1 to the query.
fn three() -> Vec<u8> {
    make(0, 5, &[1, 0, 0], &[&[1, 255, 0, 0, 0], &[1, 0, 0, 1, 0], &[0, 1, 2, 0]])
}

#[test]
fn the_body_keeps_its_flag() {
    let kept = [0, 0, 0, 0, 0, 4, 1, 0, 0, 4, 1, 4, 1, 1, 0, 4];
    assert_eq!(trace(&three(), &kept, 1, &[]), at(0, 0));
    assert_eq!(trace(&three(), &kept, 0, &[4]), at(0, 0));
    let mut cleared = kept;
    cleared[12] = 0;
    assert_eq!(trace(&three(), &cleared, 1, &[]), at(19, 12));
}

#[test]
fn unset_places_are_framed() {
    let book = make(0, 5, &[1, 1, 0], &[&[1, 255, 0, 0, 0]]);
    let framed = [0, 0, 0, 3, 2, 0, 4, 1, 0, 0, 4, 2];
    assert_eq!(trace(&book, &framed, 0, &[4]), at(0, 0));
    let mut loose = framed;
    loose[11] = 1;
    assert_eq!(trace(&book, &loose, 0, &[4]), at(19, 11));
}

#[test]
fn conversion_starts_at_the_goals_last_writer() {
    // Set 0(4), derive 1, set 0(5) again without a body, derive 1 from it, derive the query, set 0(2).
    let list = [
        &[0, 0, 0, 0][..],
        &[0, 4, 1, 0, 0, 4],
        &[1, 4, 1, 1, 0, 4],
        &[0, 5, 1, 1, 0, 5],
        &[1, 5, 1, 1, 0, 5],
        &[2, 1, 1, 1, 5],
        &[0, 2, 1, 1, 1, 2],
    ]
    .concat();
    assert_eq!(trace(&three(), &list, 2, &[]), at(0, 0));
    let mut room = [9; 8];
    assert_eq!(to_derivation(&three(), &list, 2, &[], &mut room), at(0, 5));
    assert_eq!(room, [0, 5, 1, 5, 2, 9, 9, 9]);
    assert_eq!(to_derivation(&three(), &list, 0, &[2], &mut room), at(0, 2));
    assert_eq!(room, [0, 2, 1, 5, 2, 9, 9, 9]);
}

#[test]
fn a_bodiless_clause_has_effect_later_too() {
    let list = [&[0, 0, 0, 0][..], &[0, 4, 1, 0, 0, 4], &[0, 1, 1, 0, 0, 1]].concat();
    assert_eq!(trace(&three(), &list, 0, &[1]), at(0, 0));
    assert_eq!(derivation(&three(), &[0, 4, 0, 1], 0, &[1]), at(16, 2));
}
