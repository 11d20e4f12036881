//! The clause book, read into vectors and trees.

use crate::{Answer, Part};

/// The constant plus each coefficient times its variable.
pub struct Sum {
    pub coefficients: Vec<i64>,
    pub constant: i64,
}

/// A constraint.
pub enum Node {
    True,
    AtMostZero(Sum),
    Zero(Sum),
    Not(Box<Node>),
    And(Box<Node>, Box<Node>),
    Or(Box<Node>, Box<Node>),
    Remainder { sum: Sum, divisor: i64, rest: i64 },
}

/// A relation with the variables that stand in its places.
pub struct Atom {
    pub relation: usize,
    pub arguments: Vec<usize>,
}

pub struct Clause {
    pub variables: usize,
    pub body: Option<Atom>,
    pub head: Atom,
    pub constraint: Node,
    /// Where the constraint stands in the book.
    pub part: Part,
}

pub struct Book {
    pub lo: i32,
    pub hi: i32,
    pub query: usize,
    pub arities: Vec<usize>,
    pub clauses: Vec<Clause>,
}

impl Sum {
    fn of(&self, values: &[i32]) -> i64 {
        let products = self.coefficients.iter().zip(values).map(|(&c, &v)| c * i64::from(v));
        self.constant + products.sum::<i64>()
    }
}

impl Node {
    /// Whether the constraint is true of these values.
    pub fn holds(&self, values: &[i32]) -> bool {
        match self {
            Node::True => true,
            Node::AtMostZero(sum) => sum.of(values) <= 0,
            Node::Zero(sum) => sum.of(values) == 0,
            Node::Not(a) => !a.holds(values),
            Node::And(a, b) => a.holds(values) && b.holds(values),
            Node::Or(a, b) => a.holds(values) || b.holds(values),
            Node::Remainder { sum, divisor, rest } => {
                let sum = sum.of(values);
                sum >= 0 && sum % divisor == *rest
            }
        }
    }
}

impl Atom {
    /// The values of the places, in order.
    pub fn places<'a>(&'a self, values: &'a [i32]) -> impl Iterator<Item = i32> + 'a {
        self.arguments.iter().map(|&variable| values[variable])
    }
}

impl Book {
    /// Reads a book, or gives its refusal.
    pub fn read(bytes: &[u8]) -> Result<Book, Answer> {
        if bytes.len() < 16 || bytes.len() > 60_000 {
            return Err(Answer::new(1, 0));
        }
        let trailer = bytes.len() - 16;
        let field = |at: usize| usize::from(u16::from_le_bytes([bytes[trailer + at], bytes[trailer + at + 1]]));
        let window = |at: usize| i32::from_le_bytes(bytes[trailer + at..trailer + at + 4].try_into().unwrap());
        let (lo, hi, index, clauses) = (window(0), window(4), field(8), field(10));
        let (relations, query) = (usize::from(bytes[trailer + 12]), usize::from(bytes[trailer + 13]));
        let sound = lo <= hi
            && clauses <= 64
            && (1..=16).contains(&relations)
            && index >= relations
            && query < relations
            && bytes[trailer + 14..] == [1, 0]
            && index + 2 * clauses + 16 == bytes.len();
        if !sound {
            return Err(Answer::new(2, trailer));
        }
        let mut book =
            Book { lo, hi, query, arities: read_arities(&bytes[..relations], query)?, clauses: Vec::with_capacity(clauses) };
        let mut reader = Reader { bytes: &bytes[..index], at: relations, short: 8, unfit: 7 };
        for entry in (index..trailer).step_by(2) {
            if usize::from(u16::from_le_bytes([bytes[entry], bytes[entry + 1]])) != reader.at {
                return Err(Answer::new(4, entry));
            }
            book.clauses.push(reader.clause(&book.arities)?);
        }
        if reader.at != index {
            return Err(Answer::new(4, reader.at));
        }
        Ok(book)
    }

    pub fn in_window(&self, value: i32) -> bool {
        self.lo <= value && value <= self.hi
    }
}

fn read_arities(bytes: &[u8], query: usize) -> Result<Vec<usize>, Answer> {
    for (relation, &arity) in bytes.iter().enumerate() {
        if arity > 8 || (relation == query && arity != 0) {
            return Err(Answer::new(3, relation));
        }
    }
    Ok(bytes.iter().map(|&arity| usize::from(arity)).collect())
}

/// Reads forward through bytes; `short` is the number for bytes that end too early, `unfit` the one for a bad constraint.
pub struct Reader<'a> {
    pub bytes: &'a [u8],
    pub at: usize,
    pub short: u32,
    pub unfit: u32,
}

impl<'a> Reader<'a> {
    fn take(&mut self, length: usize) -> Result<&'a [u8], Answer> {
        let taken = self.bytes.get(self.at..self.at + length).ok_or(Answer::new(self.short, self.bytes.len()))?;
        self.at += length;
        Ok(taken)
    }

    fn byte(&mut self) -> Result<u8, Answer> {
        Ok(self.take(1)?[0])
    }

    fn pair(&mut self) -> Result<u16, Answer> {
        let taken = self.take(2)?;
        Ok(u16::from_le_bytes([taken[0], taken[1]]))
    }

    fn clause(&mut self, arities: &[usize]) -> Result<Clause, Answer> {
        let at = self.at;
        let variables = usize::from(self.byte()?);
        if variables > 16 {
            return Err(Answer::new(6, at));
        }
        let body = if self.bytes.get(self.at) == Some(&255) {
            self.at += 1;
            None
        } else {
            Some(self.atom(arities, variables)?)
        };
        let head = self.atom(arities, variables)?;
        let start = self.at;
        let constraint = self.constraint(variables)?;
        let part = Part { start: start as u64, length: self.at - start };
        Ok(Clause { variables, body, head, constraint, part })
    }

    fn atom(&mut self, arities: &[usize], variables: usize) -> Result<Atom, Answer> {
        let at = self.at;
        let relation = usize::from(self.byte()?);
        let arity = *arities.get(relation).ok_or(Answer::new(5, at))?;
        let mut arguments = Vec::with_capacity(arity);
        for _ in 0..arity {
            let at = self.at;
            let variable = usize::from(self.byte()?);
            if variable >= variables {
                return Err(Answer::new(6, at));
            }
            arguments.push(variable);
        }
        Ok(Atom { relation, arguments })
    }

    /// Reads one constraint over so many variables.
    pub fn constraint(&mut self, variables: usize) -> Result<Node, Answer> {
        self.node(variables, 1, &mut 0)
    }

    fn node(&mut self, variables: usize, depth: usize, nodes: &mut usize) -> Result<Node, Answer> {
        let at = self.at;
        let kind = self.byte()?;
        *nodes += 1;
        if *nodes > 64 || depth > 16 {
            return Err(Answer::new(self.unfit, at));
        }
        let mut below = |reader: &mut Self| reader.node(variables, depth + 1, nodes).map(Box::new);
        Ok(match kind {
            0 => Node::True,
            1 => Node::AtMostZero(self.sum(variables)?),
            2 => Node::Zero(self.sum(variables)?),
            3 => Node::Not(below(self)?),
            4 => Node::And(below(self)?, below(self)?),
            5 => Node::Or(below(self)?, below(self)?),
            6 => self.remainder(variables)?,
            _ => return Err(Answer::new(self.unfit, at)),
        })
    }

    fn sum(&mut self, variables: usize) -> Result<Sum, Answer> {
        let mut coefficients = Vec::with_capacity(variables);
        for _ in 0..variables {
            coefficients.push(i64::from(self.pair()? as i16));
        }
        let constant = i32::from_le_bytes(self.take(4)?.try_into().unwrap());
        Ok(Sum { coefficients, constant: i64::from(constant) })
    }

    fn remainder(&mut self, variables: usize) -> Result<Node, Answer> {
        let sum = self.sum(variables)?;
        let at = self.at;
        let divisor = self.pair()?;
        if divisor == 0 {
            return Err(Answer::new(self.unfit, at));
        }
        let at = self.at;
        let rest = self.pair()?;
        if rest >= divisor {
            return Err(Answer::new(self.unfit, at));
        }
        Ok(Node::Remainder { sum, divisor: i64::from(divisor), rest: i64::from(rest) })
    }
}
