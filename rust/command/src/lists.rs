//! Lists of numbers, goals and clause numbers: decimal text in, and lists out again.

use crate::misuse::{quoted, Misuse};
use crate::shape::Shape;
use crate::words::{spot, unreadable, Words};
use std::io::Write;

/// The numbers of a derivation or a trace, and the text that they were read from.
#[derive(Debug, Default)]
pub struct List {
    pub name: String,
    pub numbers: Vec<i32>,
    text: Vec<u8>,
}

const SEPARATOR: u8 = b',';

impl List {
    pub fn read(name: String, text: Vec<u8>) -> Result<List, Misuse> {
        let number = |(at, word)| number(word).map_err(|why| unreadable(&name, &text, at, word, why));
        let numbers = Words::new(&text, SEPARATOR).map(number).collect::<Result<_, _>>()?;
        Ok(List { name, numbers, text })
    }

    /// Where a number stands in the text.
    pub fn spot(&self, place: usize) -> Option<String> {
        let (at, _) = Words::new(&self.text, SEPARATOR).nth(place)?;
        Some(spot(&self.name, &self.text, at))
    }
}

const NO_NUMBER: &str = "is not a decimal number";
const NO_I32: &str = "is not from -2147483648 to 2147483647";

/// A decimal number, with `-` or `−` before it if it is below zero.
fn number(word: &[u8]) -> Result<i32, &'static str> {
    let below = word.strip_prefix(b"-").or_else(|| word.strip_prefix("−".as_bytes()));
    let digits = below.unwrap_or(word);
    if digits.is_empty() || !digits.iter().all(u8::is_ascii_digit) {
        return Err(NO_NUMBER);
    }
    let size = digits.iter().fold(0i64, |size, digit| size.saturating_mul(10).saturating_add(i64::from(digit - b'0')));
    i32::try_from(if below.is_some() { -size } else { size }).map_err(|_| NO_I32)
}

/// A relation or clause number of an argument.
pub fn index(word: &str) -> Result<u64, Misuse> {
    let digits = !word.is_empty() && word.bytes().all(|byte| byte.is_ascii_digit());
    let number = if digits { word.parse().ok() } else { None };
    number.ok_or_else(|| Misuse::new(format!("{} is not a number from 0 to {}", quoted(word), u64::MAX)))
}

/// A relation and its values.
#[derive(Debug, Default, PartialEq, Eq)]
pub struct Goal {
    pub relation: u64,
    pub values: Vec<i32>,
}

impl Goal {
    pub fn read(word: &str) -> Result<Goal, Misuse> {
        let form = |misuse: Misuse| Misuse::new(format!("goal {}: {}; a goal is such as 1 or 0:3,-4", quoted(word), misuse.what));
        let (relation, values) = word.split_once(':').map_or((word, None), |(relation, values)| (relation, Some(values)));
        let value = |word: &str| number(word.as_bytes()).map_err(|why| Misuse::new(format!("{} {why}", quoted(word))));
        Ok(Goal {
            relation: index(relation).map_err(form)?,
            values: values.iter().flat_map(|values| values.split(',')).map(value).collect::<Result<_, _>>().map_err(form)?,
        })
    }
}

/// A derivation or a trace as text that can be read back: a trace's first state and each step on a line of its own.
pub fn lines(numbers: &[i32], shape: &Shape, trace: bool) -> Vec<u8> {
    let state = if trace { shape.state() } else { 0 };
    let mut text = Vec::with_capacity(numbers.len() * 4);
    let mut rest = numbers;
    let mut first = trace;
    while let Some(clause) = rest.first() {
        let step = if first { state } else { 1 + shape.variables(*clause as usize) + state };
        let (line, after) = rest.split_at(step);
        for (i, number) in line.iter().enumerate() {
            let _ = write!(text, "{}{number}", if i == 0 { "" } else { " " });
        }
        text.extend_from_slice(if after.is_empty() { b"\n" } else { b",\n" });
        (rest, first) = (after, false);
    }
    text
}

#[cfg(test)]
mod tests {
    use super::*;

    fn read(text: &str) -> Result<Vec<i32>, String> {
        List::read("f".into(), text.into()).map(|list| list.numbers).map_err(|misuse| misuse.what)
    }

    #[test]
    fn lists_are_read() {
        assert_eq!(read("0 0, 1 0 1\n# 7\n-5,−6 007#8\r\n").unwrap(), [0, 0, 1, 0, 1, -5, -6, 7]);
        assert_eq!(read("-2147483648 2147483647 −0").unwrap(), [i32::MIN, i32::MAX, 0]);
        assert_eq!(read(" # nothing\n").unwrap(), []);
    }

    #[test]
    fn what_is_no_number_is_told_with_its_place() {
        for (text, words) in [
            ("0 x", "f, line 1, column 3: 'x' is not a decimal number"),
            ("0,\n− 1", "f, line 2, column 1: '−' is not a decimal number"),
            ("1-2", "'1-2' is not a decimal number"),
            ("--2", "'--2' is not a decimal number"),
            ("+2", "'+2' is not a decimal number"),
            ("1\n\n  2147483648", "f, line 3, column 3: '2147483648' is not from -2147483648 to 2147483647"),
            ("-2147483649", "is not from"),
            ("99999999999999999999999999", "is not from"),
            ("1.5", "'1.5' is not a decimal number"),
        ] {
            let what = read(text).unwrap_err();
            assert!(what.contains(words), "{what}");
        }
    }

    #[test]
    fn goals_are_read() {
        let goal = |word| Goal::read(word).map_err(|misuse| misuse.what);
        assert_eq!(goal("1"), Ok(Goal { relation: 1, values: vec![] }));
        assert_eq!(goal("0:3,-4,−5"), Ok(Goal { relation: 0, values: vec![3, -4, -5] }));
        assert_eq!(goal("18446744073709551615").unwrap().relation, u64::MAX);
        for word in ["", ":", "1:", "1:2,", "x", "-1", "1:2:3", "1:x", "1:3000000000", "18446744073709551616", "+1"] {
            assert!(goal(word).unwrap_err().contains("a goal is such as"), "{word}");
        }
    }

    #[test]
    fn a_number_is_found_in_the_text() {
        let list = List::read("f".into(), b"0 0,\n1 # 5\n2".to_vec()).unwrap();
        assert_eq!(list.spot(3).unwrap(), "f, line 3, column 1");
        assert_eq!(list.spot(4), None);
    }
}
