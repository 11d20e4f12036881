//! Books and models: bytes as they are, or hexadecimal text.

use crate::misuse::Misuse;
use crate::words::{spot, unreadable, Words};

/// How a file is to be read; without a wish, its bytes decide.
#[derive(Clone, Copy, Debug, PartialEq, Eq)]
pub enum Form {
    Any,
    Hex,
    Binary,
}

/// The bytes of a book or a model, and the text that they were read from.
#[derive(Debug, Default)]
pub struct Bytes {
    pub name: String,
    pub bytes: Vec<u8>,
    text: Option<Vec<u8>>,
}

/// No text has a control byte but white space, while every accepted book ends with byte 0 and every accepted model begins with a
/// kind, 0 to 6: so a file with such a byte is binary, any other is text, and nothing that is accepted is taken for the other.
fn is_text(content: &[u8]) -> bool {
    !content.iter().any(|byte| *byte < b' ' && !byte.is_ascii_whitespace())
}

impl Bytes {
    pub fn read(name: String, content: Vec<u8>, form: Form) -> Result<Bytes, Misuse> {
        let text = form == Form::Hex || form == Form::Any && is_text(&content);
        if !text {
            return Ok(Bytes { name, bytes: content, text: None });
        }
        let bytes = pairs(&name, &content)?;
        if bytes.is_empty() {
            let what = if content.is_empty() { "is empty" } else { "has no pair of hexadecimal digits" };
            return Err(Misuse::new(format!("{name} {what}; {FORMS}")));
        }
        Ok(Bytes { name, bytes, text: Some(content) })
    }

    /// Where a byte stands in the text, if there is one.
    pub fn spot(&self, place: usize) -> Option<String> {
        let text = self.text.as_deref()?;
        let mut before = 0;
        for (at, word) in Words::new(text, SEPARATOR) {
            if place - before < word.len() / 2 {
                return Some(spot(&self.name, text, at + 2 * (place - before)));
            }
            before += word.len() / 2;
        }
        None
    }
}

const SEPARATOR: u8 = b'|';

const FORMS: &str = "it is read as hexadecimal text (--binary reads it as bytes)";

/// The bytes that a hexadecimal text holds.
fn pairs(name: &str, text: &[u8]) -> Result<Vec<u8>, Misuse> {
    let mut bytes = Vec::with_capacity(text.len() / 2);
    for (at, word) in Words::new(text, SEPARATOR) {
        for pair in word.chunks(2) {
            let byte = std::str::from_utf8(pair).ok().filter(|pair| pair.len() == 2 && !pair.starts_with('+'));
            match byte.and_then(|pair| u8::from_str_radix(pair, 16).ok()) {
                Some(byte) => bytes.push(byte),
                None => return Err(unreadable(name, text, at, word, &format!("is not in pairs of hexadecimal digits; {FORMS}"))),
            }
        }
    }
    Ok(bytes)
}

#[cfg(test)]
mod tests {
    use super::*;

    fn read(content: &[u8], form: Form) -> Result<Vec<u8>, String> {
        Bytes::read("f".into(), content.into(), form).map(|it| it.bytes).map_err(|misuse| misuse.what)
    }

    #[test]
    fn hexadecimal_text_is_read() {
        assert_eq!(read(b"01 fF|0a\n# 99\n0B0c #", Form::Any).unwrap(), [1, 255, 10, 11, 12]);
        assert_eq!(read(b"41", Form::Binary).unwrap(), b"41");
    }

    #[test]
    fn a_control_byte_makes_a_file_binary() {
        assert_eq!(read(b"41\x00", Form::Any).unwrap(), b"41\x00");
        assert_eq!(read(b"# \x1b", Form::Any).unwrap(), b"# \x1b");
        assert_eq!(read(b"41\t42\x0c\r\n", Form::Any).unwrap(), b"AB");
        assert_eq!(read("41 # Zähler".as_bytes(), Form::Any).unwrap(), b"A");
        assert_eq!(read(b"", Form::Binary).unwrap(), b"");
    }

    #[test]
    fn what_is_not_in_pairs_is_told_with_its_place() {
        for (content, words) in [
            (&b"01\n 0g"[..], "f, line 2, column 2: '0g' is not in pairs"),
            (b"012", "f, line 1, column 1: '012' is not in pairs"),
            (b"+1", "'+1' is not in pairs"),
            (b"1", "'1' is not in pairs"),
            ("é".as_bytes(), "'é' is not in pairs"),
            (b"", "f is empty"),
            (b"| # 01", "f has no pair of hexadecimal digits"),
        ] {
            let what = read(content, Form::Any).unwrap_err();
            assert!(what.contains(words), "{what}");
        }
        assert!(read(b"\x00", Form::Hex).unwrap_err().contains("'\\0' is not in pairs"));
    }

    #[test]
    fn a_byte_is_found_in_the_text() {
        let it = Bytes::read("f".into(), b"01 | 0203\n04".into(), Form::Any).unwrap();
        assert_eq!(it.spot(2).unwrap(), "f, line 1, column 8");
        assert_eq!(it.spot(3).unwrap(), "f, line 2, column 1");
        assert_eq!(it.spot(4), None);
        assert_eq!(Bytes::read("f".into(), vec![0], Form::Any).unwrap().spot(0), None);
    }
}
