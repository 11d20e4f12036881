//! Cases at the limits of size: books of 60,000 bytes, lists of a million numbers, a million assignments.

use crate::cases::{clause_numbers, Case};
use crate::draft::{Atom, Clause, Draft, Node, Sum};
use crate::lists::{Listing, Question, State, Step};
use crate::random::Random;

const MILLION: usize = 1_000_000;

/// The limit cases in turn, so that each comes up whatever the seed is.
pub fn draw(random: &mut Random, turn: usize) -> Case {
    let inner = turn / 8;
    match turn % 8 {
        0 => book_size(random, inner),
        1 => converted(random, inner),
        2 => far_over(random),
        3 => ends_of_sums(random, inner),
        4 | 5 => long_lists(random, inner),
        _ => assignments(random, 2 * inner + turn % 2),
    }
}

/// A clause without body, then one from its head to itself; relation 0 has all arguments it can take from the variables.
fn looping(arities: Vec<usize>, variables: usize) -> Draft {
    let arguments = (0..arities[0]).map(|place| place % variables.max(1)).collect();
    let head = Atom { relation: 0, arguments };
    let start = Clause { body: None, head: head.clone(), constraint: Node::True, witness: vec![1; variables] };
    let again = Clause { body: Some(head), ..start.clone() };
    Draft { lo: 0, hi: 1, query: arities.len() - 1, arities, clauses: vec![start, again] }
}

fn looping_steps(draft: &Draft, count: usize) -> Vec<Step> {
    (0..count).map(|number| Step { clause: number.min(1), values: draft.clauses[0].witness.clone() }).collect()
}

/// Arities whose state has so many numbers (up to 136); the last relation, the query, has no places.
fn arities_of_state(numbers: usize) -> Vec<usize> {
    let relations = (numbers + 8).div_ceil(9);
    let mut places = numbers - relations;
    let mut arities = vec![0; relations];
    for arity in &mut arities {
        *arity = places.min(8);
        places -= *arity;
    }
    arities
}

/// Both questions about these steps, which start from all places the least value.
fn ask(random: &mut Random, draft: &Draft, derivation: &[Step], trace: &[Step], goal: i32) -> Case {
    let question = |list| Question { list, values: vec![goal; draft.arities[0]], ..Question::default() };
    Case {
        book: draft.write().bytes,
        clauses: clause_numbers(random, draft.clauses.len() as u64),
        derivation: question(Listing::derivation(derivation).numbers),
        trace: question(Listing::trace(draft, State::first(draft, || draft.lo), trace).numbers),
        model: (0..draft.arities.len()).flat_map(|relation| if relation == draft.query { vec![3, 0] } else { vec![0] }).collect(),
        slack: 0,
    }
}

/// A derivation whose trace has exactly a million numbers, or one more, and that trace.
fn converted(random: &mut Random, turn: usize) -> Case {
    let length = MILLION + turn % 2;
    let (state, variables) = loop {
        let (state, variables) = (random.below(136) + 1, random.below(17));
        let places = arities_of_state(state)[0];
        if (length - state).is_multiple_of(1 + variables + state) && (places == 0 || variables > 0) {
            break (state, variables);
        }
    };
    let draft = looping(arities_of_state(state), variables);
    let steps = looping_steps(&draft, (length - state) / (1 + variables + state));
    ask(random, &draft, &steps, &steps, 1)
}

/// A short derivation whose trace is too long, by less than a step or by many.
fn far_over(random: &mut Random) -> Case {
    let (state, variables) = (random.below(16) + 121, random.below(16) + 1);
    let draft = looping(arities_of_state(state), variables);
    let fitting = (MILLION - state) / (1 + variables + state);
    let steps = looping_steps(&draft, fitting + random.pick(&[1, 2, 1_000, 9_000]));
    ask(random, &draft, &steps, &steps[..20], 1)
}

/// Lists of 999,999 to 1,000,001 numbers, some with a late fault.
fn long_lists(random: &mut Random, turn: usize) -> Case {
    let length = MILLION - 1 + turn % 3;
    let variables = random.below(3);
    let draft = looping(vec![variables.min(1), 0], variables);
    let derivation = looping_steps(&draft, length.div_ceil(1 + variables));
    let trace = looping_steps(&draft, length / (1 + variables + draft.state()) + 1);
    let mut case = ask(random, &draft, &derivation, &trace, 1);
    for list in [&mut case.derivation.list, &mut case.trace.list] {
        list.resize(length, 1);
        if random.chance(30) {
            let at = length - 1 - random.below(9);
            list[at] = random.pick(&[-1, 0, 1, 2]);
        }
    }
    case
}

/// Sums of sixteen products at the ends of their ranges, each clause after the one before; in some cases one is false by a single unit.
fn ends_of_sums(random: &mut Random, turn: usize) -> Case {
    let value = [i32::MIN, i32::MAX][turn % 2];
    let mut draft = looping(vec![1, 0], 16);
    (draft.lo, draft.hi) = (i32::MIN, i32::MAX);
    let (first, later) = (draft.clauses[0].clone(), draft.clauses[1].clone());
    draft.clauses.clear();
    for (coefficient, constant) in [(i16::MIN, i32::MIN), (i16::MIN, i32::MAX), (i16::MAX, i32::MIN), (i16::MAX, i32::MAX)] {
        for divisor in [0, 1, 2, 65_521, 65_535] {
            let mut clause = if draft.clauses.is_empty() { first.clone() } else { later.clone() };
            clause.witness = vec![value; 16];
            clause.constraint = at_the_end(Sum { coefficients: vec![coefficient; 16], constant }, divisor, value);
            draft.clauses.push(clause);
        }
    }
    let steps: Vec<Step> = (0..draft.clauses.len()).map(|clause| Step { clause, values: vec![value; 16] }).collect();
    let mut case = ask(random, &draft, &steps, &steps, value);
    if turn % 4 > 1 {
        let (step, variable) = (random.below(steps.len()), random.below(15) + 1);
        case.derivation.list[17 * step + 1 + variable] -= value.signum();
    }
    case
}

/// A constraint that is true where each variable has this value; a divisor of 0 stands for a comparison.
fn at_the_end(sum: Sum, divisor: u16, value: i32) -> Node {
    let values = [value; 16];
    let node = match divisor {
        0 => Node::Compare(1, sum),
        _ => {
            let rest = sum.of(&values).rem_euclid(i64::from(divisor)) as u16;
            Node::Remainder(sum, divisor, rest)
        }
    };
    if node.holds(&values) {
        node
    } else {
        Node::Not(Box::new(node))
    }
}

/// A book of 59,999 to 60,001 bytes that is in order otherwise.
fn book_size(random: &mut Random, turn: usize) -> Case {
    let size = 59_999 + turn % 3;
    let mut draft = looping(vec![0], 16);
    draft.lo = 1;
    let sum = Sum { coefficients: vec![random.number() as i16; 16], constant: random.number() as i32 };
    loop {
        let left = size - draft.write().bytes.len();
        if left == 0 {
            break;
        }
        draft.clauses.push(filler(&sum, left));
    }
    let steps = looping_steps(&draft, 2);
    ask(random, &draft, &steps, &steps, 1)
}

/// A clause of at most so many bytes, its index entry counted; what is left is 0 or can be filled again.
fn filler(sum: &Sum, left: usize) -> Clause {
    const LEAST: usize = 6;
    let head = Atom { relation: 0, arguments: Vec::new() };
    let wide = |leaves| Clause { body: None, head: head.clone(), constraint: balanced(sum, leaves), witness: vec![1; 16] };
    if left > 1_300 {
        return wide(32);
    }
    if left > 62 {
        return wide(1);
    }
    let bytes = if left <= 21 { left } else { (left - LEAST).min(21) };
    let nots = bytes - LEAST;
    let constraint = (0..nots).fold(Node::True, |node, _| Node::Not(Box::new(node)));
    Clause { body: None, head, constraint, witness: Vec::new() }
}

fn balanced(sum: &Sum, leaves: usize) -> Node {
    match leaves {
        1 => Node::Compare(1, sum.clone()),
        _ => Node::Join(5, Box::new(balanced(sum, leaves / 2)), Box::new(balanced(sum, leaves - leaves / 2))),
    }
}

/// Window and variables of each clause, for about a million assignments or so many that a u64 would wrap.
const WINDOWS: [(i32, i32, &[usize]); 17] = [
    (0, 999, &[2]),
    (0, 999, &[2, 0]),
    (0, 999, &[0, 2]),
    (-5, 4, &[6]),
    (-5, 4, &[6, 0]),
    (-99, 0, &[3]),
    (0, 999_999, &[1]),
    (0, 1_000_000, &[1]),
    (1, 999_999, &[1, 0]),
    (0, 1, &[16, 16, 16, 16, 16, 16, 16, 16, 16, 16, 16, 16, 16, 16, 16, 14, 9, 6]),
    (0, 1, &[16, 16, 16, 16, 16, 16, 16, 16, 16, 16, 16, 16, 16, 16, 16, 14, 9, 6, 0]),
    (i32::MIN, i32::MAX, &[2]),
    (i32::MIN, i32::MAX, &[16, 16]),
    (0, 65_535, &[4]),
    (0, 2_097_151, &[3, 3]),
    (0, 1_048_575, &[3, 3, 3, 3, 3, 3, 3, 3, 3, 3, 3, 3, 3, 3, 3, 3]),
    (0, 3, &[16]),
];

/// About a million assignments; in some the very last one is broken.
fn assignments(random: &mut Random, turn: usize) -> Case {
    let (lo, hi, variables) = WINDOWS[turn / 2 % WINDOWS.len()];
    let mut draft = looping(vec![0, 0], 0);
    draft.clauses = variables.iter().map(|&count| Clause { witness: vec![lo; count], ..draft.clauses[0].clone() }).collect();
    (draft.lo, draft.hi) = (lo, hi);
    if let Some(last) = draft.clauses.last_mut().filter(|_| turn % 2 == 1) {
        let count = last.variables();
        last.head.relation = draft.query;
        last.constraint =
            Node::Compare(2, Sum { coefficients: vec![1; count], constant: (count as i32).wrapping_mul(hi.wrapping_neg()) });
    }
    ask(random, &draft, &[], &[], lo)
}
