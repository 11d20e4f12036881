//! The little of a book's format that messages and the layout of lists need. The kit has judged the book before: a trailer is
//! asked of a book of 16 bytes or more, and the rest of an accepted book.

const TRAILER: usize = 16;
const NO_BODY: u8 = 255;

pub struct Shape<'a> {
    book: &'a [u8],
    pub low: i32,
    pub high: i32,
    pub index: usize,
    pub clauses: usize,
    pub relations: usize,
    pub query: u8,
    pub version: [u8; 2],
}

impl<'a> Shape<'a> {
    pub fn of(book: &'a [u8]) -> Shape<'a> {
        let t = &book[book.len() - TRAILER..];
        Shape {
            book,
            low: i32::from_le_bytes([t[0], t[1], t[2], t[3]]),
            high: i32::from_le_bytes([t[4], t[5], t[6], t[7]]),
            index: short(t, 8),
            clauses: short(t, 10),
            relations: usize::from(t[12]),
            query: t[13],
            version: [t[14], t[15]],
        }
    }

    pub fn arity(&self, relation: usize) -> usize {
        usize::from(self.book[relation])
    }

    /// How many numbers a state has.
    pub fn state(&self) -> usize {
        self.relations + (0..self.relations).map(|relation| self.arity(relation)).sum::<usize>()
    }

    /// The index entry at a byte.
    pub fn entry(&self, at: usize) -> usize {
        short(self.book, at)
    }

    fn record(&self, clause: usize) -> &[u8] {
        &self.book[self.entry(self.index + 2 * clause)..]
    }

    pub fn variables(&self, clause: usize) -> usize {
        usize::from(self.record(clause)[0])
    }

    pub fn has_body(&self, clause: usize) -> bool {
        self.record(clause)[1] != NO_BODY
    }

    pub fn window(&self) -> String {
        format!("window {} to {}", self.low, self.high)
    }

    /// The trailer's fields in words.
    pub fn summary(&self) -> String {
        let [relations, clauses] = [counted(self.relations, "relation"), counted(self.clauses, "clause")];
        format!("{}, {relations}, {clauses}, query relation {}", self.window(), self.query)
    }
}

fn short(bytes: &[u8], at: usize) -> usize {
    usize::from(u16::from_le_bytes([bytes[at], bytes[at + 1]]))
}

/// A count of things, in words.
pub fn counted(count: usize, thing: &str) -> String {
    format!("{count} {thing}{}", if count == 1 { "" } else { "s" })
}
