//! A book before it is written, and the writer. A draft may be against the rules of a book.

#[derive(Clone)]
pub struct Sum {
    pub coefficients: Vec<i16>,
    pub constant: i32,
}

#[derive(Clone)]
pub enum Node {
    True,
    /// Kind 1 or 2.
    Compare(u8, Sum),
    Not(Box<Node>),
    /// Kind 4 or 5.
    Join(u8, Box<Node>, Box<Node>),
    Remainder(Sum, u16, u16),
}

#[derive(Clone)]
pub struct Atom {
    pub relation: usize,
    pub arguments: Vec<usize>,
}

#[derive(Clone)]
pub struct Clause {
    pub body: Option<Atom>,
    pub head: Atom,
    pub constraint: Node,
    /// One value for each variable; most often they make the constraint true.
    pub witness: Vec<i32>,
}

pub struct Draft {
    pub lo: i32,
    pub hi: i32,
    pub query: usize,
    pub arities: Vec<usize>,
    pub clauses: Vec<Clause>,
}

impl Sum {
    pub fn products(&self, values: &[i32]) -> i64 {
        self.coefficients.iter().zip(values).map(|(&c, &v)| i64::from(c) * i64::from(v)).sum()
    }

    pub fn of(&self, values: &[i32]) -> i64 {
        self.products(values) + i64::from(self.constant)
    }
}

impl Node {
    pub fn no() -> Node {
        Node::Not(Box::new(Node::True))
    }

    pub fn holds(&self, values: &[i32]) -> bool {
        match self {
            Node::True => true,
            Node::Compare(1, sum) => sum.of(values) <= 0,
            Node::Compare(_, sum) => sum.of(values) == 0,
            Node::Not(a) => !a.holds(values),
            Node::Join(4, a, b) => a.holds(values) && b.holds(values),
            Node::Join(_, a, b) => a.holds(values) || b.holds(values),
            Node::Remainder(sum, d, r) => {
                let sum = sum.of(values);
                sum >= 0 && sum % i64::from(*d) == i64::from(*r)
            }
        }
    }

    pub fn nodes(&self) -> usize {
        match self {
            Node::Not(a) => 1 + a.nodes(),
            Node::Join(_, a, b) => 1 + a.nodes() + b.nodes(),
            _ => 1,
        }
    }

    pub fn depth(&self) -> usize {
        match self {
            Node::Not(a) => 1 + a.depth(),
            Node::Join(_, a, b) => 1 + a.depth().max(b.depth()),
            _ => 1,
        }
    }
}

impl Clause {
    pub fn variables(&self) -> usize {
        self.witness.len()
    }
}

/// What stands at a marked byte.
#[derive(Clone, Copy, PartialEq, Eq, Debug)]
pub enum Field {
    Arity,
    Variables,
    Relation,
    Argument,
    Kind,
    Divisor,
    Rest,
    Entry,
}

pub const FIELDS: [Field; 8] =
    [Field::Arity, Field::Variables, Field::Relation, Field::Argument, Field::Kind, Field::Divisor, Field::Rest, Field::Entry];

/// Bytes as they are written, with marks on the fields that a reader judges.
#[derive(Default)]
pub struct Writer {
    pub bytes: Vec<u8>,
    pub marks: Vec<(Field, usize)>,
    /// Where the index starts.
    pub index: usize,
}

impl Writer {
    fn field(&mut self, field: Field, bytes: &[u8]) {
        self.marks.push((field, self.bytes.len()));
        self.bytes.extend_from_slice(bytes);
    }

    fn sum(&mut self, sum: &Sum) {
        for coefficient in &sum.coefficients {
            self.bytes.extend(coefficient.to_le_bytes());
        }
        self.bytes.extend(sum.constant.to_le_bytes());
    }

    pub fn node(&mut self, node: &Node) {
        match node {
            Node::True => self.field(Field::Kind, &[0]),
            Node::Compare(kind, sum) => {
                self.field(Field::Kind, &[*kind]);
                self.sum(sum);
            }
            Node::Not(a) => {
                self.field(Field::Kind, &[3]);
                self.node(a);
            }
            Node::Join(kind, a, b) => {
                self.field(Field::Kind, &[*kind]);
                self.node(a);
                self.node(b);
            }
            Node::Remainder(sum, d, r) => {
                self.field(Field::Kind, &[6]);
                self.sum(sum);
                self.field(Field::Divisor, &d.to_le_bytes());
                self.field(Field::Rest, &r.to_le_bytes());
            }
        }
    }

    fn atom(&mut self, atom: &Atom) {
        self.field(Field::Relation, &[atom.relation as u8]);
        for &argument in &atom.arguments {
            self.field(Field::Argument, &[argument as u8]);
        }
    }

    fn clause(&mut self, clause: &Clause) {
        self.field(Field::Variables, &[clause.variables() as u8]);
        match &clause.body {
            Some(body) => self.atom(body),
            None => self.field(Field::Relation, &[255]),
        }
        self.atom(&clause.head);
        self.node(&clause.constraint);
    }
}

impl Draft {
    pub fn write(&self) -> Writer {
        let mut writer = Writer::default();
        for &arity in &self.arities {
            writer.field(Field::Arity, &[arity as u8]);
        }
        let mut starts = Vec::new();
        for clause in &self.clauses {
            starts.push(writer.bytes.len() as u16);
            writer.clause(clause);
        }
        writer.index = writer.bytes.len();
        for start in starts {
            writer.field(Field::Entry, &start.to_le_bytes());
        }
        writer.bytes.extend(self.lo.to_le_bytes());
        writer.bytes.extend(self.hi.to_le_bytes());
        writer.bytes.extend((writer.index as u16).to_le_bytes());
        writer.bytes.extend((self.clauses.len() as u16).to_le_bytes());
        writer.bytes.extend([self.arities.len() as u8, self.query as u8, 1, 0]);
        writer
    }

    /// How many assignments a model check would try.
    pub fn assignments(&self) -> f64 {
        let width = f64::from(self.hi) - f64::from(self.lo) + 1.0;
        self.clauses.iter().map(|clause| width.powi(clause.variables() as i32)).sum()
    }

    /// How many numbers a state has.
    pub fn state(&self) -> usize {
        self.arities.len() + self.arities.iter().sum::<usize>()
    }
}
