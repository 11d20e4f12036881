//! Models drawn at random.

use crate::books::value;
use crate::damage;
use crate::draft::{Draft, Node, Sum, Writer};
use crate::random::Random;
use crate::trees::Trees;

/// Over so many assignments a model is most often one that is refused before they are tried.
const MANY: f64 = 3_000.0;

pub fn draw(random: &mut Random, draft: &Draft) -> Vec<u8> {
    let mut writer = Writer::default();
    let mode = random.below(6);
    let heavy = draft.assignments() > MANY && draft.assignments() < 1.1e6 && !random.chance(2);
    for (relation, &arity) in draft.arities.iter().enumerate() {
        let node = if relation == draft.query { query(random, heavy) } else { constraint(random, draft, mode, arity) };
        writer.node(&node);
    }
    if random.chance(20) {
        return damage::model(random, writer);
    }
    writer.bytes
}

/// The query's constraint: false as a rule, true where the assignments are too many to try them often.
fn query(random: &mut Random, heavy: bool) -> Node {
    let truth = heavy || random.chance(10);
    let sum = |yes, no| Sum { coefficients: Vec::new(), constant: if truth { yes } else { no } };
    match random.below(4) {
        0 if truth => Node::True,
        0 => Node::no(),
        1 => Node::Compare(1, sum(0, 1)),
        2 => Node::Compare(2, sum(0, -1)),
        _ => Node::Remainder(sum(5, -1), 3, 2),
    }
}

fn constraint(random: &mut Random, draft: &Draft, mode: usize, arity: usize) -> Node {
    let places: Vec<i32> = (0..arity).map(|_| value(random, draft.lo, draft.hi)).collect();
    let size = random.pick(&[1, 1, 2, 3, 5, 9]);
    let (drawn, beyond) = (random.below(3), random.below(40));
    let mut trees = Trees { random, values: &places, wild: false };
    match (mode, drawn, beyond) {
        (_, _, 0) => trees.sized(65, 16),
        (_, _, 1) => trees.deep(17),
        (_, _, 2) => trees.deep(16),
        (_, _, 3) => trees.sized(64, 16),
        (0, _, _) | (1..=3, 0, _) => Node::True,
        (4, _, _) | (1..=3, 1, _) => Node::no(),
        _ => trees.sized(size, 8),
    }
}
