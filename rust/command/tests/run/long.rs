//! Long lists and long texts.

use crate::books::{book, changed, count_to, counter};
use crate::folder::Folder;

/// 2 + 3 * 333,332 + 2 numbers.
const MILLION: i32 = 333_332;

#[test]
fn a_derivation_of_a_million_numbers() {
    let folder = Folder::with(&[("b", &counter(MILLION))]);
    folder.put("d", count_to(MILLION));
    folder.says("derivation b d 1", 0, "accepted\n");
    let numbers = 3 + 5 + 6 * MILLION + 5;
    folder.says(
        "to-trace b d 1",
        1,
        &format!("refused 20 at {numbers}: the trace would have {numbers} numbers, and a list has 1 to 1,000,000\n"),
    );
    let last = count_to(MILLION).replace(&format!("\n2 {MILLION}\n"), &format!("\n2 {}\n", MILLION - 1));
    folder.put("d", last);
    let ran = folder.run("derivation b d 1");
    assert!(ran.status == 1 && ran.out.starts_with("refused 15 at 999998: "), "{ran:?}");
    assert!(ran.out.ends_with(&format!(" (d, line {}, column 1)\n", MILLION + 2)), "{ran:?}");
}

#[test]
fn one_number_more_is_refused_by_the_kit() {
    let folder = Folder::with(&[("b", &counter(MILLION))]);
    folder.put("d", count_to(MILLION) + "7");
    let words = "refused 11 at 0: the list has 1000001 numbers, and a list has 1 to 1,000,000\n";
    for command in ["derivation", "trace", "to-trace", "to-derivation"] {
        folder.says(&format!("{command} b d 1"), 1, words);
    }
    folder.put("bad", changed(&counter(3), 58, 2));
    assert!(folder.run("derivation bad d 1").out.starts_with("refused 2 at 44: "));
    assert!(folder.run("derivation b d 2").out.starts_with("refused 10 at 0: "));
}

#[test]
fn a_long_trace_and_back() {
    let high = 166_664;
    let folder = Folder::with(&[("b", &counter(high))]);
    folder.put("d", count_to(high));
    folder.says("to-trace b d 1 -o t", 0, "written: 999997 numbers\n");
    folder.says("trace b t 1", 0, "accepted\n");
    assert_eq!(folder.get("t").lines().count(), high as usize + 3);
    let ran = folder.run("to-derivation b t 1");
    assert!(ran.status == 0 && ran.out == count_to(high));
}

/// A constraint of so many sums over sixteen variables, joined in a balanced tree.
fn sums(count: usize) -> Vec<u8> {
    match count {
        1 => [&[1][..], &[0x80; 36]].concat(),
        _ => [&[4][..], &sums(count / 2), &sums(count - count / 2)].concat(),
    }
}

#[test]
fn a_text_of_any_length() {
    let mut arities = vec![8; 16];
    arities[15] = 0;
    let record: Vec<u8> = [&[16, 0][..], &[0, 1, 2, 3, 4, 5, 6, 7], &[1], &[8, 9, 10, 11, 12, 13, 14, 15], &sums(24)].concat();
    let book = book(&arities, &vec![record; 64], i32::MIN, i32::MAX, 15);
    assert!((59_000..=60_000).contains(&book.len()), "{}", book.len());
    let mut room = vec![0; 1 << 24];
    let answer = ruahmitz_kit::text(&book, &mut room);
    assert_eq!(answer.number, 0);
    let text = std::str::from_utf8(&room[..answer.place as usize]).unwrap();
    assert!(text.len() > 500_000, "{}", text.len());
    let folder = Folder::with(&[("b", &book)]);
    let ran = folder.run("print b");
    assert!(ran.status == 0 && ran.out == text && ran.err.is_empty());
    folder.says("print b --output long", 0, &format!("written: {} bytes\n", text.len()));
    assert!(folder.get("long") == text);
}
