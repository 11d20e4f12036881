//! The words of a text: what stands between white space, one more separator, and comments (`#` to the end of the line).

use crate::misuse::{quoted, Misuse};

pub struct Words<'a> {
    text: &'a [u8],
    at: usize,
    separator: u8,
}

impl<'a> Words<'a> {
    pub fn new(text: &'a [u8], separator: u8) -> Words<'a> {
        let mark = "\u{feff}".as_bytes();
        Words { text, at: if text.starts_with(mark) { mark.len() } else { 0 }, separator }
    }

    fn parts(&self, byte: u8) -> bool {
        byte.is_ascii_whitespace() || byte == self.separator
    }

    /// Goes on while the bytes are such.
    fn pass(&mut self, such: impl Fn(&Self, u8) -> bool) {
        while self.at < self.text.len() && such(self, self.text[self.at]) {
            self.at += 1;
        }
    }
}

/// A word and the byte where it begins.
impl<'a> Iterator for Words<'a> {
    type Item = (usize, &'a [u8]);

    fn next(&mut self) -> Option<Self::Item> {
        loop {
            self.pass(Self::parts);
            if self.text.get(self.at) != Some(&b'#') {
                break;
            }
            self.pass(|_, byte| byte != b'\n');
        }
        let start = self.at;
        self.pass(|words, byte| !words.parts(byte) && byte != b'#');
        (start < self.at).then(|| (start, &self.text[start..self.at]))
    }
}

/// Where a byte of a text stands, in words.
pub fn spot(name: &str, text: &[u8], at: usize) -> String {
    let before = &text[..at];
    let line = before.iter().filter(|&&byte| byte == b'\n').count() + 1;
    let start = before.iter().rposition(|&byte| byte == b'\n').map_or(0, |end| end + 1);
    let column = String::from_utf8_lossy(&before[start..]).trim_start_matches('\u{feff}').chars().count() + 1;
    format!("{name}, line {line}, column {column}")
}

/// A word of a file that cannot be read.
pub fn unreadable(name: &str, text: &[u8], at: usize, word: &[u8], why: &str) -> Misuse {
    Misuse::new(format!("{}: {} {why}", spot(name, text, at), quoted(&String::from_utf8_lossy(word))))
}

#[cfg(test)]
mod tests {
    use super::*;

    #[test]
    fn words_stand_between_spaces_separators_and_comments() {
        let words = |text| Words::new(text, b',').collect::<Vec<_>>();
        assert_eq!(words(b" ab,c\r\n#d e\nf#g\n##\nh"), [(1, &b"ab"[..]), (4, b"c"), (12, b"f"), (19, b"h")]);
        assert_eq!(words("\u{feff}a".as_bytes()), [(3, &b"a"[..])]);
        assert_eq!(words(b""), []);
        assert_eq!(words(b" ,\n# all of it"), []);
    }

    #[test]
    fn a_column_counts_characters() {
        let text = "a\n−1 b".as_bytes();
        let (at, word) = Words::new(text, b',').nth(2).unwrap();
        assert_eq!((word, spot("f", text, at)), (&b"b"[..], "f, line 2, column 4".to_string()));
    }
}
