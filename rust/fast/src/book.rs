//! The clause book, read into flat tables.

use crate::truth::Node;
use crate::Answer;

/// Stands for a body's relation where there is none.
pub const NONE: u8 = 255;

/// A relation with the variables that stand in its places.
#[derive(Clone, Copy)]
pub struct Atom {
    pub relation: u8,
    pub arity: u8,
    places: [u8; 8],
}

impl Atom {
    /// The atom of no relation.
    pub const NONE: Atom = Atom { relation: NONE, arity: 0, places: [0; 8] };

    /// The variables, place by place.
    #[inline(always)]
    pub fn arguments(&self) -> &[u8] {
        &self.places[..usize::from(self.arity).min(8)]
    }
}

#[derive(Clone, Copy)]
pub struct Clause {
    pub variables: u8,
    pub body: Atom,
    pub head: Atom,
    /// Which node its constraint begins with.
    pub constraint: usize,
}

pub struct Book {
    pub lo: i32,
    pub hi: i32,
    pub query: usize,
    pub relations: usize,
    /// 0 for relations that are not there.
    pub arities: [u8; 16],
    pub clauses: Vec<Clause>,
    /// All constraints, one after the other.
    pub nodes: Vec<Node>,
}

pub fn pair(bytes: &[u8], at: usize) -> u16 {
    u16::from_le_bytes([bytes[at], bytes[at + 1]])
}

pub fn four(bytes: &[u8], at: usize) -> i32 {
    i32::from_le_bytes([bytes[at], bytes[at + 1], bytes[at + 2], bytes[at + 3]])
}

impl Book {
    /// Reads a book, or gives its refusal.
    pub fn read(bytes: &[u8]) -> Result<Book, Answer> {
        if bytes.len() < 16 || bytes.len() > 60_000 {
            return Err(Answer::refused(1, 0));
        }
        let trailer = bytes.len() - 16;
        let index = usize::from(pair(bytes, trailer + 8));
        let mut book = Book::of_trailer(&bytes[trailer..], bytes.len()).ok_or_else(|| Answer::refused(2, trailer))?;
        book.read_arities(bytes)?;
        let mut reader = Reader { bytes: &bytes[..index], at: book.relations, short: 8, unfit: 7 };
        for entry in (index..trailer).step_by(2) {
            if usize::from(pair(bytes, entry)) != reader.at {
                return Err(Answer::refused(4, entry));
            }
            book.read_clause(&mut reader)?;
        }
        if reader.at != index {
            return Err(Answer::refused(4, reader.at));
        }
        Ok(book)
    }

    /// What the trailer of a book of so many bytes says, if it keeps its rules.
    fn of_trailer(trailer: &[u8], length: usize) -> Option<Book> {
        let (lo, hi) = (four(trailer, 0), four(trailer, 4));
        let (index, clauses) = (usize::from(pair(trailer, 8)), usize::from(pair(trailer, 10)));
        let (relations, query) = (usize::from(trailer[12]), usize::from(trailer[13]));
        let sound = lo <= hi
            && clauses <= 64
            && (1..=16).contains(&relations)
            && index >= relations
            && query < relations
            && trailer[14..] == [1, 0]
            && index + 2 * clauses + 16 == length;
        let (clauses, nodes) = (Vec::with_capacity(clauses.min(64)), Vec::with_capacity(64));
        sound.then_some(Book { lo, hi, query, relations, arities: [0; 16], clauses, nodes })
    }

    fn read_arities(&mut self, bytes: &[u8]) -> Result<(), Answer> {
        for (relation, &arity) in bytes[..self.relations].iter().enumerate() {
            if arity > 8 || (relation == self.query && arity != 0) {
                return Err(Answer::refused(3, relation));
            }
            self.arities[relation] = arity;
        }
        Ok(())
    }

    fn read_clause(&mut self, reader: &mut Reader) -> Result<(), Answer> {
        let at = reader.at;
        let variables = reader.byte()?;
        if variables > 16 {
            return Err(Answer::refused(6, at));
        }
        let arities = &self.arities[..self.relations];
        let body = if reader.bytes.get(reader.at) == Some(&NONE) {
            reader.at += 1;
            Atom::NONE
        } else {
            reader.atom(arities, variables)?
        };
        let head = reader.atom(arities, variables)?;
        let constraint = self.nodes.len();
        reader.constraint(usize::from(variables), &mut self.nodes)?;
        self.clauses.push(Clause { variables, body, head, constraint });
        Ok(())
    }

    /// How many values a variable or a place can have.
    pub fn width(&self) -> u64 {
        (i64::from(self.hi) - i64::from(self.lo) + 1) as u64
    }
}

/// Reads forward through bytes; `short` is the number for bytes that end too early, `unfit` the one for a bad constraint.
pub struct Reader<'a> {
    pub bytes: &'a [u8],
    pub at: usize,
    pub short: u32,
    pub unfit: u32,
}

impl Reader<'_> {
    /// Moves on over so many bytes; gives where they begin.
    fn skip(&mut self, length: usize) -> Result<usize, Answer> {
        if self.bytes.len() - self.at < length {
            return Err(Answer::refused(self.short, self.bytes.len()));
        }
        self.at += length;
        Ok(self.at - length)
    }

    fn byte(&mut self) -> Result<u8, Answer> {
        let at = self.skip(1)?;
        Ok(self.bytes[at])
    }

    fn atom(&mut self, arities: &[u8], variables: u8) -> Result<Atom, Answer> {
        let at = self.at;
        let relation = self.byte()?;
        let arity = *arities.get(usize::from(relation)).ok_or_else(|| Answer::refused(5, at))?;
        let mut places = [0; 8];
        for place in &mut places[..usize::from(arity)] {
            let at = self.at;
            *place = self.byte()?;
            if *place >= variables {
                return Err(Answer::refused(6, at));
            }
        }
        Ok(Atom { relation, arity, places })
    }

    /// Reads one constraint over so many variables and puts its nodes after those that are there.
    pub fn constraint(&mut self, variables: usize, nodes: &mut Vec<Node>) -> Result<(), Answer> {
        let most = nodes.len() + 64;
        self.node(variables, 1, most, nodes)
    }

    fn node(&mut self, variables: usize, depth: usize, most: usize, nodes: &mut Vec<Node>) -> Result<(), Answer> {
        let at = self.at;
        let kind = self.byte()?;
        if nodes.len() == most || depth > 16 || kind > 6 {
            return Err(Answer::refused(self.unfit, at));
        }
        let first = nodes.len();
        nodes.push(Node::new(kind, self.at));
        let sides = match kind {
            1 | 2 => self.skip(2 * variables + 4).map(|_| 0)?,
            3 => 1,
            4 | 5 => 2,
            6 => self.remainder(variables).map(|()| 0)?,
            _ => 0,
        };
        for _ in 0..sides {
            self.node(variables, depth + 1, most, nodes)?;
        }
        Node::close(nodes, first);
        Ok(())
    }

    fn remainder(&mut self, variables: usize) -> Result<(), Answer> {
        self.skip(2 * variables + 4)?;
        let at = self.skip(2)?;
        let divisor = pair(self.bytes, at);
        if divisor == 0 {
            return Err(Answer::refused(self.unfit, at));
        }
        let at = self.skip(2)?;
        if pair(self.bytes, at) >= divisor {
            return Err(Answer::refused(self.unfit, at));
        }
        Ok(())
    }
}
