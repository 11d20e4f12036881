//! Books drawn at random within the limits, on them, and one beyond.

use crate::draft::{Atom, Clause, Draft, Node};
use crate::random::Random;
use crate::trees::Trees;

/// How large a draft may grow.
struct Shape {
    relations: usize,
    arity: usize,
    clauses: usize,
    variables: usize,
    nodes: usize,
    depth: usize,
    wild: bool,
}

fn shape(random: &mut Random) -> Shape {
    let (relations, arity, clauses, variables, nodes, depth) = match random.below(40) {
        0..=21 => (4, 2, 6, 3, 3, 3),
        22..=35 => (8, 4, 12, 6, 12, 8),
        36..=38 => (16, 8, 16, 16, 64, 16),
        _ => (16, 8, 64, 16, 8, 16),
    };
    Shape { relations, arity, clauses, variables, nodes, depth, wild: random.chance(30) }
}

/// A number up to `most`, and `most` itself more often.
fn up_to(random: &mut Random, most: usize) -> usize {
    if random.chance(15) {
        most
    } else {
        random.below(most + 1)
    }
}

fn window(random: &mut Random) -> (i32, i32) {
    let width = random.below(6) as i32;
    let any = random.number() as i32;
    match random.below(16) {
        0..=5 => (0, width),
        6..=8 => (-width, random.below(3) as i32),
        9 => (-9 - width, -9),
        10 => (any, any),
        11 => (i32::MIN, i32::MAX),
        12 => (i32::MIN, i32::MIN + width),
        13 => (i32::MAX - width, i32::MAX),
        14 => (0, 999),
        _ => {
            let other = random.number() as i32;
            (any.min(other), any.max(other))
        }
    }
}

/// A value in the window, often at an end.
pub fn value(random: &mut Random, lo: i32, hi: i32) -> i32 {
    let any = random.between(lo.into(), hi.into()) as i32;
    random.pick(&[lo, hi, 0.clamp(lo, hi), any, any])
}

/// Makes clauses one after another; `facts` are those that the witnesses so far derive.
struct Maker<'a> {
    random: &'a mut Random,
    shape: Shape,
    draft: Draft,
    facts: Vec<(usize, Vec<i32>)>,
}

impl Maker<'_> {
    fn value(&mut self) -> i32 {
        value(self.random, self.draft.lo, self.draft.hi)
    }

    /// An atom of any relation over any of the variables.
    fn any_atom(&mut self, values: &mut Vec<i32>) -> Atom {
        let relation = self.random.below(self.draft.arities.len());
        let arity = self.draft.arities[relation];
        if arity > 0 && values.is_empty() {
            values.push(self.value());
        }
        let arguments = (0..arity).map(|_| self.random.below(values.len())).collect();
        Atom { relation, arguments }
    }

    /// A body that an earlier fact meets; variables are added for values that are missing.
    fn fitting_body(&mut self, values: &mut Vec<i32>) -> Option<Atom> {
        let latest = self.facts.len().checked_sub(1)?;
        let number = if self.random.chance(60) { latest } else { self.random.below(latest + 1) };
        let (relation, places) = self.facts[number].clone();
        let mut arguments = Vec::new();
        for place in places {
            let found = values.iter().position(|&value| value == place).filter(|_| self.random.chance(70));
            match found {
                Some(variable) => arguments.push(variable),
                None if values.len() < self.shape.variables => {
                    arguments.push(values.len());
                    values.push(place);
                }
                None => return None,
            }
        }
        Some(Atom { relation, arguments })
    }

    fn clause(&mut self) -> Clause {
        let mut values = Vec::new();
        for _ in 0..up_to(self.random, self.shape.variables) {
            values.push(self.value());
        }
        let body = match self.random.below(20) {
            0..=4 => None,
            5 => Some(self.any_atom(&mut values)),
            _ => self.fitting_body(&mut values),
        };
        let head = self.any_atom(&mut values);
        let constraint = self.constraint(&values);
        if constraint.holds(&values) {
            self.facts.push((head.relation, head.arguments.iter().map(|&variable| values[variable]).collect()));
        }
        Clause { body, head, constraint, witness: values }
    }

    /// A constraint that is most often true of the values.
    fn constraint(&mut self, values: &[i32]) -> Node {
        if self.random.chance(20) {
            return Node::True;
        }
        let (most, depth) = (self.shape.nodes, self.shape.depth);
        let nodes = up_to(self.random, most.min((1 << depth) - 1) - 1) + 1;
        let mut trees = Trees { random: self.random, values, wild: self.shape.wild };
        let node = if trees.random.chance(10) { trees.deep(depth) } else { trees.sized(nodes, depth) };
        let fits = node.depth() < 16 && node.nodes() < 64;
        match node.holds(values) || self.random.chance(10) {
            true => node,
            false if fits => Node::Not(Box::new(node)),
            false => Node::True,
        }
    }
}

/// A draft within the limits.
pub fn draft(random: &mut Random) -> Draft {
    let shape = shape(random);
    let (lo, hi) = window(random);
    let relations = up_to(random, shape.relations - 1) + 1;
    let mut arities: Vec<usize> = (0..relations).map(|_| up_to(random, shape.arity)).collect();
    let query = random.below(relations);
    arities[query] = 0;
    let clauses = up_to(random, shape.clauses);
    let mut maker = Maker { random, shape, draft: Draft { lo, hi, query, arities, clauses: Vec::new() }, facts: Vec::new() };
    for _ in 0..clauses {
        let clause = maker.clause();
        maker.draft.clauses.push(clause);
    }
    maker.draft
}

/// Brings one thing to its limit or one beyond it.
pub fn stretch(random: &mut Random, draft: &mut Draft) {
    let beyond = random.below(2);
    match random.below(6) {
        0 => draft.arities.resize(16 + beyond, 0),
        1 => {
            let relation = random.below(draft.arities.len());
            draft.arities[relation] = 8 + beyond;
        }
        2 => stretch_clauses(random, draft, 64 + beyond),
        which => stretch_clause(random, draft, which, beyond),
    }
}

fn stretch_clauses(random: &mut Random, draft: &mut Draft, count: usize) {
    if draft.clauses.is_empty() {
        let atom = Atom { relation: draft.query, arguments: Vec::new() };
        draft.clauses.push(Clause { body: None, head: atom, constraint: Node::True, witness: Vec::new() });
    }
    while draft.clauses.len() < count {
        let again = draft.clauses[random.below(draft.clauses.len())].clone();
        draft.clauses.push(again);
    }
}

fn stretch_clause(random: &mut Random, draft: &mut Draft, which: usize, beyond: usize) {
    if draft.clauses.is_empty() {
        return;
    }
    let number = random.below(draft.clauses.len());
    let clause = &mut draft.clauses[number];
    if which == 3 {
        clause.witness.resize(16 + beyond, draft.lo);
    }
    let mut trees = Trees { random, values: &clause.witness, wild: false };
    clause.constraint = match which {
        3 => Node::True,
        4 => trees.sized(64 + beyond, 16),
        _ => trees.deep(16 + beyond),
    };
}
