//! The books, lists and models that are timed.

use ruahmitz_compare::draft::{Atom, Clause, Draft, Node, Sum, Writer};

fn sum(coefficients: &[i16], constant: i32) -> Sum {
    Sum { coefficients: coefficients.to_vec(), constant }
}

fn equal(coefficients: &[i16], constant: i32) -> Node {
    Node::Compare(2, sum(coefficients, constant))
}

fn at_most(coefficients: &[i16], constant: i32) -> Node {
    Node::Compare(1, sum(coefficients, constant))
}

/// These nodes joined by kind 4 or 5, as evenly as can be.
fn joined(kind: u8, mut nodes: Vec<Node>) -> Node {
    if nodes.len() == 1 {
        return nodes.remove(0);
    }
    let rest = nodes.split_off(nodes.len() / 2);
    Node::Join(kind, Box::new(joined(kind, nodes)), Box::new(joined(kind, rest)))
}

fn atom(relation: usize, arguments: &[usize]) -> Atom {
    Atom { relation, arguments: arguments.to_vec() }
}

fn clause(variables: usize, body: Option<Atom>, head: Atom, constraint: Node) -> Clause {
    Clause { body, head, constraint, witness: vec![0; variables] }
}

/// One place that counts up from 0; every constraint is one node.
pub fn counter(hi: i32) -> Draft {
    let clauses =
        vec![clause(1, None, atom(0, &[0]), equal(&[1], 0)), clause(2, Some(atom(0, &[0])), atom(0, &[1]), equal(&[1, -1], 1))];
    Draft { lo: 0, hi, query: 1, arities: vec![1, 0], clauses }
}

/// Three places: the first counts up, the others stay; the step's constraint has 16 nodes over six variables.
pub fn machine(hi: i32) -> Draft {
    let step = joined(
        4,
        vec![
            equal(&[1, 0, 0, -1, 0, 0], 1),
            equal(&[0, 1, 0, 0, -1, 0], 0),
            equal(&[0, 0, 1, 0, 0, -1], 0),
            joined(5, vec![Node::Remainder(sum(&[0, 1, 1, 0, 0, 0], 0), 7, 3), at_most(&[0, 1, 0, 0, 0, 0], -9)]),
            Node::Not(Box::new(at_most(&[0, 0, 0, 1, 0, 0], 0))),
            joined(5, vec![equal(&[0, 1, -1, 0, 0, 0], 0), at_most(&[1, 1, 1, 0, 0, 0], 0)]),
        ],
    );
    let start = joined(4, vec![equal(&[1, 0, 0], 0), equal(&[0, 1, 0], 0), equal(&[0, 0, 1], 0)]);
    let clauses =
        vec![clause(3, None, atom(0, &[0, 1, 2]), start), clause(6, Some(atom(0, &[0, 1, 2])), atom(0, &[3, 4, 5]), step)];
    Draft { lo: 0, hi, query: 1, arities: vec![3, 0], clauses }
}

/// Two variables under a constraint of 61 nodes, of which nearly every assignment needs all.
pub fn choice(hi: i32) -> Draft {
    let sums = (0..31).map(|k| equal(&[31, -17], k * 1000 - 7)).collect();
    let clauses =
        vec![clause(1, None, atom(0, &[0]), equal(&[1], 0)), clause(2, Some(atom(0, &[0])), atom(0, &[1]), joined(5, sums))];
    Draft { lo: 0, hi, query: 1, arities: vec![1, 0], clauses }
}

/// A book of so many clauses over 16 variables, each with a constraint of so many sums.
pub fn bulk(clauses: usize, sums: usize) -> Draft {
    let coefficients: Vec<i16> = (0..16).map(|k| if k % 2 == 0 { 1000 + k } else { -20_000 - k }).collect();
    let constraint = || joined(4, (0..sums).map(|k| at_most(&coefficients, 7 * k as i32 - 50)).collect());
    let one = || clause(16, Some(atom(0, &[0, 1, 2, 3])), atom(0, &[4, 5, 6, 7]), constraint());
    Draft { lo: -1000, hi: 1000, query: 1, arities: vec![4, 0], clauses: (0..clauses).map(|_| one()).collect() }
}

/// A derivation of so many steps of a book whose first place counts up and whose other places stay 0.
pub fn derivation(draft: &Draft, steps: i32) -> Vec<i32> {
    let arity = draft.arities[0];
    let mut list = vec![0; 1 + arity];
    for x in 0..steps - 1 {
        let mut step = vec![0; 1 + 2 * arity];
        (step[0], step[1], step[1 + arity]) = (1, x, x + 1);
        list.extend(step);
    }
    list
}

/// The values that such a derivation ends with.
pub fn last(draft: &Draft, steps: i32) -> Vec<i32> {
    let mut values = vec![0; draft.arities[0]];
    values[0] = steps - 1;
    values
}

/// A model of a book: this constraint for relation 0, and false for the query.
pub fn model(constraint: &Node) -> Vec<u8> {
    let mut writer = Writer::default();
    writer.node(constraint);
    writer.node(&Node::no());
    writer.bytes
}

/// No place is below zero: always so, and worked out for each assignment.
pub fn not_below(arity: usize) -> Node {
    at_most(&vec![-1; arity], 0)
}
