//! Constraints as lists of tests. A test compares one sum and has two ways out, so joins and denials cost nothing when values are tried.

use crate::book::{four, pair};
use crate::Values;

/// A node of a constraint that was read.
pub struct Node {
    kind: u8,
    /// Where its sum stands in the bytes.
    at: u32,
    /// The node after the constraint that begins here.
    end: u32,
    /// Its truth, if no value changes it.
    truth: Option<bool>,
}

impl Node {
    pub fn new(kind: u8, at: usize) -> Node {
        Node { kind, at: at as u32, end: 0, truth: None }
    }

    /// Fills in what is known of a node when all below it have been read.
    pub fn close(nodes: &mut [Node], at: usize) {
        let truth = match nodes[at].kind {
            0 => Some(true),
            3 => nodes[at + 1].truth.map(|truth| !truth),
            kind @ (4 | 5) => joined(kind == 5, nodes[at + 1].truth, nodes[nodes[at + 1].end as usize].truth),
            _ => None,
        };
        (nodes[at].end, nodes[at].truth) = (nodes.len() as u32, truth);
    }
}

/// The truth of a join of two sides, of which one suffices if it is `decisive`.
fn joined(decisive: bool, one: Option<bool>, other: Option<bool>) -> Option<bool> {
    if one == Some(decisive) || other == Some(decisive) {
        Some(decisive)
    } else {
        one.and(other)
    }
}

/// Where a test leads to: to so many tests that are left, of which the last comes next. With none left all is true.
type Label = u16;
pub const TRUE: Label = 0;
pub const FALSE: Label = u16::MAX;

/// What a sum has to be, and where that leads. A test that comes out as `when` says leads on to the one before it, any other to `jump`.
#[derive(Clone, Copy)]
pub struct Way {
    /// The sum, as a number without sign, is at most this.
    range: u64,
    /// Where this is not 0, the sum also leaves `rest`.
    divisor: u16,
    rest: u16,
    when: bool,
    jump: Label,
}

/// A test of a sum in the form `S`.
pub struct Test<S> {
    pub sum: S,
    pub way: Way,
}

impl Way {
    #[inline(always)]
    fn passes(&self, sum: i64) -> bool {
        sum as u64 <= self.range && (self.divisor == 0 || self.leaves(sum as u64))
    }

    /// Most sums are small, and a division of 32 bits is faster.
    #[inline]
    fn leaves(&self, sum: u64) -> bool {
        match u32::try_from(sum) {
            Ok(small) => small % u32::from(self.divisor) == u32::from(self.rest),
            Err(_) => sum % u64::from(self.divisor) == u64::from(self.rest),
        }
    }

    /// Where a sum leads to from the test that comes after so many.
    #[inline(always)]
    pub fn next(&self, sum: i64, left: Label) -> Label {
        if self.passes(sum) == self.when {
            left
        } else {
            self.jump
        }
    }
}

/// Whether the tests lead to true, where `of` works out a sum.
#[inline(always)]
pub fn hold<S>(tests: &[Test<S>], of: impl Fn(&S) -> i64) -> bool {
    let mut left = tests;
    while let Some((test, before)) = left.split_last() {
        if test.way.passes(of(&test.sum)) == test.way.when {
            left = before;
        } else if test.way.jump == FALSE {
            return false;
        } else {
            left = &before[..usize::from(test.way.jump)];
        }
    }
    true
}

/// A coefficient and its variable.
#[derive(Clone, Copy, Default)]
pub struct Term {
    pub coefficient: i32,
    pub variable: u8,
}

/// A sum over a clause's variables. The constant is moved by so much that the test's range begins at 0; sums may then wrap round.
pub struct Sum {
    constant: i64,
    /// Two terms, with coefficient 0 where there are fewer, and those after them.
    first: [Term; 2],
    more: Box<[Term]>,
}

impl Sum {
    #[inline(always)]
    pub fn of(&self, values: &Values) -> i64 {
        let product = |term: &Term| i64::from(term.coefficient) * i64::from(values[usize::from(term.variable & 15)]);
        let sum = self.constant.wrapping_add(product(&self.first[0]) + product(&self.first[1]));
        self.more.iter().fold(sum, |sum, term| sum.wrapping_add(product(term)))
    }

    /// The terms whose coefficient is not 0.
    pub fn terms(&self) -> impl Iterator<Item = Term> + '_ {
        self.first.iter().chain(&self.more).copied().filter(|term| term.coefficient != 0)
    }
}

/// A constraint whose variable k is the clause's variable `variables[k]`.
pub struct Constraint<'a> {
    pub bytes: &'a [u8],
    pub nodes: &'a [Node],
    pub first: usize,
    pub variables: &'a [u8],
}

/// Tests over a clause's variables, the first to be made last.
#[derive(Default)]
pub struct Tests {
    pub list: Vec<Test<Sum>>,
}

impl Tests {
    /// The tests of one constraint.
    pub fn of(constraint: &Constraint) -> Tests {
        let mut tests = Tests::default();
        let entry = tests.put(constraint, TRUE, FALSE);
        tests.close(entry);
        tests
    }

    /// Puts a constraint before what is there already, to lead on to `yes` or `no`; gives where it is entered. One of the two labels is
    /// that of the test put last.
    pub fn put(&mut self, constraint: &Constraint, yes: Label, no: Label) -> Label {
        self.put_node(constraint, constraint.first, yes, no)
    }

    /// Makes tests that lead to false out of an entry that is false.
    pub fn close(&mut self, entry: Label) {
        if entry == FALSE {
            let sum = Sum { constant: 1, first: [Term::default(); 2], more: Box::new([]) };
            self.list = vec![Test { sum, way: Way { range: 0, divisor: 0, rest: 0, when: true, jump: FALSE } }];
        }
    }

    fn put_node(&mut self, constraint: &Constraint, at: usize, yes: Label, no: Label) -> Label {
        let node = &constraint.nodes[at];
        let second = |tests: &mut Tests| tests.put_node(constraint, constraint.nodes[at + 1].end as usize, yes, no);
        match (node.truth, node.kind) {
            (Some(true), _) => yes,
            (Some(false), _) => no,
            (None, 3) => self.put_node(constraint, at + 1, no, yes),
            (None, 4) => {
                let then = second(self);
                self.put_node(constraint, at + 1, then, no)
            }
            (None, 5) => {
                let otherwise = second(self);
                self.put_node(constraint, at + 1, yes, otherwise)
            }
            (None, _) => self.put_test(constraint, node, yes, no),
        }
    }

    fn put_test(&mut self, constraint: &Constraint, node: &Node, yes: Label, no: Label) -> Label {
        let end = node.at as usize + 2 * constraint.variables.len();
        let constant = i64::from(four(constraint.bytes, end));
        let (constant, range) = match node.kind {
            1 => (constant.wrapping_sub(i64::MIN), i64::MIN as u64),
            2 => (constant, 0),
            _ => (constant, i64::MAX as u64),
        };
        let (divisor, rest) =
            if node.kind == 6 { (pair(constraint.bytes, end + 4), pair(constraint.bytes, end + 6)) } else { (0, 0) };
        let when = usize::from(yes) == self.list.len();
        let way = Way { range, divisor, rest, when, jump: if when { no } else { yes } };
        self.list.push(Test { sum: constraint.sum(node, constant), way });
        self.list.len() as Label
    }
}

impl Constraint<'_> {
    /// A node's sum, with the coefficients of one variable added up.
    fn sum(&self, node: &Node, constant: i64) -> Sum {
        let mut coefficients = [0; 16];
        for (k, &variable) in self.variables.iter().enumerate() {
            coefficients[usize::from(variable)] += i32::from(pair(self.bytes, node.at as usize + 2 * k) as i16);
        }
        let terms = (0..).zip(coefficients).map(|(variable, coefficient)| Term { coefficient, variable });
        let mut terms = terms.filter(|term| term.coefficient != 0);
        let first = [terms.next().unwrap_or_default(), terms.next().unwrap_or_default()];
        Sum { constant, first, more: terms.collect() }
    }
}

#[cfg(test)]
mod tests {
    use super::*;
    use crate::book::Reader;

    /// All constraints over two variables, up to a depth, with few sums.
    fn constraints(depth: usize) -> Vec<Vec<u8>> {
        let mut all: Vec<Vec<u8>> = vec![
            vec![0],
            vec![1, 1, 0, 0, 0, 0, 0, 0, 0],
            vec![2, 0, 0, 1, 0, 255, 255, 255, 255],
            vec![6, 1, 0, 255, 255, 1, 0, 0, 0, 2, 0, 1, 0],
        ];
        if depth > 1 {
            let below = constraints(depth - 1);
            all.extend(below.iter().map(|side| [&[3], &side[..]].concat()));
            for (one, other, kind) in pairs(&below, &constraints(1)) {
                all.push([&[kind], one, other].concat());
                all.push([&[kind], other, one].concat());
            }
        }
        all
    }

    /// A side of each, under both joins.
    fn pairs<'a>(ones: &'a [Vec<u8>], others: &'a [Vec<u8>]) -> Vec<(&'a [u8], &'a [u8], u8)> {
        let joined = |one: &'a [u8]| others.iter().flat_map(move |other| [(one, &other[..], 4), (one, &other[..], 5)]);
        ones.iter().flat_map(|one| joined(one)).collect()
    }

    /// Works out the truth node by node, and moves on.
    fn plain(bytes: &mut &[u8], x: i32, y: i32) -> bool {
        let kind = bytes[0];
        *bytes = &bytes[1..];
        let mut sum = |more: usize| {
            let taken = *bytes;
            *bytes = &bytes[8 + more..];
            let coefficient = |at: usize| i32::from(pair(taken, at) as i16);
            (coefficient(0) * x + coefficient(2) * y + four(taken, 4), taken)
        };
        match kind {
            0 => true,
            1 => sum(0).0 <= 0,
            2 => sum(0).0 == 0,
            3 => !plain(bytes, x, y),
            4 => plain(bytes, x, y) & plain(bytes, x, y),
            5 => plain(bytes, x, y) | plain(bytes, x, y),
            _ => {
                let (sum, taken) = sum(4);
                sum >= 0 && sum % i32::from(pair(taken, 8)) == i32::from(pair(taken, 10))
            }
        }
    }

    #[test]
    fn tests_say_what_the_nodes_say() {
        for bytes in constraints(4) {
            let mut nodes = Vec::new();
            let mut reader = Reader { bytes: &bytes, at: 0, short: 8, unfit: 7 };
            assert_eq!(reader.constraint(2, &mut nodes), Ok(()));
            let tests = Tests::of(&Constraint { bytes: &bytes, nodes: &nodes, first: 0, variables: &[0, 1] });
            for (x, y) in (-2..3).flat_map(|x| (-2..3).map(move |y| (x, y))) {
                let mut values = [0; 16];
                (values[0], values[1]) = (x, y);
                assert_eq!(hold(&tests.list, |sum| sum.of(&values)), plain(&mut &bytes[..], x, y), "{bytes:?} of {x} and {y}");
            }
        }
    }

    /// Sums of the greatest size, on both sides of zero.
    #[test]
    fn the_ends_of_a_sum() {
        let ends = |kind: u8, coefficient: i16, constant: i32| {
            let mut bytes = vec![kind];
            (0..16).for_each(|_| bytes.extend(coefficient.to_le_bytes()));
            bytes.extend(constant.to_le_bytes());
            bytes.extend([255, 255, 0, 0]);
            let nodes = [Node::new(kind, 1)];
            let variables: Vec<u8> = (0..16).collect();
            let tests = Tests::of(&Constraint { bytes: &bytes, nodes: &nodes, first: 0, variables: &variables });
            hold(&tests.list, |sum| sum.of(&[i32::MIN; 16]))
        };
        assert!(!ends(1, i16::MIN, i32::MAX) && ends(1, i16::MAX, i32::MIN));
        assert!(!ends(2, i16::MIN, i32::MAX) && ends(2, 0, 0));
        assert!(!ends(6, i16::MAX, i32::MIN) && ends(6, 0, 65535) && !ends(6, 0, 65534));
    }
}
