//! Books, lists and models for the tests.

/// Document 01's book B as it stands there.
pub const B: &str = "01 00 | 01 FF 00 00 02 01 00 00 00 00 00 | 02 00 00 00 01 02 01 00 FF FF 01 00 00 00 | \
    01 00 00 01 02 01 00 FD FF FF FF | 02 00 0D 00 1B 00 | 00 00 00 00 03 00 00 00 26 00 03 00 02 01 01 00";

/// Document 01's derivation D and its trace, a step a line.
pub const D: &str = "0 0,\n1 0 1,\n1 1 2,\n1 2 3,\n2 3\n";
pub const T: &str = "0 0 0,\n0 0 1 0 0,\n1 0 1 1 0 1,\n1 1 2 1 0 2,\n1 2 3 1 0 3,\n2 3 1 1 3\n";

/// The bytes of arities, records and trailer, with the index made for them.
pub fn book(arities: &[u8], records: &[Vec<u8>], low: i32, high: i32, query: u8) -> Vec<u8> {
    let mut book = arities.to_vec();
    let mut index = Vec::new();
    for record in records {
        index.extend((book.len() as u16).to_le_bytes());
        book.extend(record);
    }
    let start = book.len() as u16;
    book.extend(index);
    book.extend([low.to_le_bytes(), high.to_le_bytes()].concat());
    book.extend([start.to_le_bytes(), (records.len() as u16).to_le_bytes()].concat());
    book.extend([arities.len() as u8, query, 1, 0]);
    book
}

/// Book B, counting up to `high`.
pub fn counter(high: i32) -> Vec<u8> {
    let last = [&[1, 0, 0, 1, 2, 1, 0][..], &(-high).to_le_bytes()].concat();
    let first = vec![1, 0xff, 0, 0, 2, 1, 0, 0, 0, 0, 0];
    let next = vec![2, 0, 0, 0, 1, 2, 1, 0, 0xff, 0xff, 1, 0, 0, 0];
    book(&[1, 0], &[first, next, last], 0, high, 1)
}

/// The same book with a byte changed.
pub fn changed(book: &[u8], at: usize, byte: u8) -> Vec<u8> {
    let mut book = book.to_vec();
    book[at] = byte;
    book
}

/// The derivation of the counter's query.
pub fn count_to(high: i32) -> String {
    let mut text = "0 0,\n".to_string();
    for i in 0..high {
        text += &format!("1 {i} {},\n", i + 1);
    }
    text + &format!("2 {high}\n")
}
