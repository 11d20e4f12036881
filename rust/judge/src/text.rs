//! The transition system as text.

use crate::book::{Atom, Book, Clause, Node, Sum};
use crate::Answer;
use std::fmt::{Display, Formatter, Result, Write};

/// Prints the transition system into the room.
pub fn text(book: &[u8], room: &mut [u8]) -> Answer {
    let book = match Book::read(book) {
        Ok(book) => book,
        Err(refusal) => return refusal,
    };
    let mut out = String::new();
    write_system(&book, &mut out).expect("a string takes all text");
    match room.get_mut(..out.len()) {
        Some(front) => {
            front.copy_from_slice(out.as_bytes());
            Answer::new(0, out.len())
        }
        None => Answer::new(9, out.len()),
    }
}

/// A number; one below zero is written as a term.
struct Number(i64);

impl Display for Number {
    fn fmt(&self, f: &mut Formatter) -> Result {
        if self.0 < 0 {
            write!(f, "(- {})", -self.0)
        } else {
            write!(f, "{}", self.0)
        }
    }
}

fn write_system(book: &Book, out: &mut String) -> Result {
    for (r, &arity) in book.arities.iter().enumerate() {
        write_symbol(out, format_args!("l{r}"), "Bool")?;
        for p in 0..arity {
            write_symbol(out, format_args!("p{r}_{p}"), "Int")?;
        }
    }
    for (c, clause) in book.clauses.iter().enumerate() {
        for v in 0..clause.variables {
            writeln!(out, "(declare-fun y{c}_{v} () Int)")?;
        }
    }
    write_init(book, out)?;
    out.write_str("(define-fun trans () Bool (! (or false false")?;
    for (c, clause) in book.clauses.iter().enumerate() {
        write_part(book, c, clause, out)?;
    }
    out.write_str(") :trans true))\n")?;
    writeln!(out, "(define-fun prop () Bool (! (not l{}) :invar-property 0))", book.query)
}

/// A symbol, its next one, and the definition that joins them.
fn write_symbol(out: &mut String, name: impl Display, sort: &str) -> Result {
    writeln!(out, "(declare-fun {name} () {sort})")?;
    writeln!(out, "(declare-fun {name}n () {sort})")?;
    writeln!(out, "(define-fun s{name} () {sort} (! {name} :next {name}n))")
}

fn write_init(book: &Book, out: &mut String) -> Result {
    out.write_str("(define-fun init () Bool (! (and true")?;
    for r in 0..book.arities.len() {
        write!(out, " (not l{r})")?;
    }
    for (r, &arity) in book.arities.iter().enumerate() {
        for p in 0..arity {
            write_limits(book, out, format_args!("p{r}_{p}"))?;
        }
    }
    out.write_str(") :init true))\n")
}

fn write_limits(book: &Book, out: &mut String, name: impl Display) -> Result {
    let (lo, hi) = (Number(book.lo.into()), Number(book.hi.into()));
    write!(out, " (<= {lo} {name}) (<= {name} {hi})")
}

/// The part of the transition that belongs to a clause.
fn write_part(book: &Book, c: usize, clause: &Clause, out: &mut String) -> Result {
    out.write_str(" (and true")?;
    for v in 0..clause.variables {
        write_limits(book, out, format_args!("y{c}_{v}"))?;
    }
    out.write_str(" ")?;
    write_node(c, &clause.constraint, out)?;
    if let Some(body) = &clause.body {
        write_atom(c, body, "", out)?;
    }
    write_atom(c, &clause.head, "n", out)?;
    for (r, &arity) in book.arities.iter().enumerate() {
        if r != clause.head.relation {
            write!(out, " (= l{r}n l{r})")?;
            for p in 0..arity {
                write!(out, " (= p{r}_{p}n p{r}_{p})")?;
            }
        }
    }
    out.write_str(")")
}

/// The flag and the places of an atom; `mark` is `n` for the next state.
fn write_atom(c: usize, atom: &Atom, mark: &str, out: &mut String) -> Result {
    let r = atom.relation;
    write!(out, " l{r}{mark}")?;
    for (p, v) in atom.arguments.iter().enumerate() {
        write!(out, " (= p{r}_{p}{mark} y{c}_{v})")?;
    }
    Ok(())
}

fn write_node(c: usize, node: &Node, out: &mut String) -> Result {
    match node {
        Node::True => out.write_str("true"),
        Node::AtMostZero(sum) => write!(out, "(<= {} 0)", Term(c, sum)),
        Node::Zero(sum) => write!(out, "(= {} 0)", Term(c, sum)),
        Node::Not(a) => write_nodes(c, "not", &[a], out),
        Node::And(a, b) => write_nodes(c, "and", &[a, b], out),
        Node::Or(a, b) => write_nodes(c, "or", &[a, b], out),
        Node::Remainder { sum, divisor, rest } => {
            let sum = Term(c, sum);
            write!(out, "(and (<= 0 {sum}) (= (mod {sum} {divisor}) {rest}))")
        }
    }
}

fn write_nodes(c: usize, word: &str, nodes: &[&Node], out: &mut String) -> Result {
    write!(out, "({word}")?;
    for node in nodes {
        out.write_str(" ")?;
        write_node(c, node, out)?;
    }
    out.write_str(")")
}

/// A sum over the variables of a numbered clause.
struct Term<'a>(usize, &'a Sum);

impl Display for Term<'_> {
    fn fmt(&self, f: &mut Formatter) -> Result {
        let Term(c, sum) = self;
        write!(f, "(+ 0 {}", Number(sum.constant))?;
        for (v, &coefficient) in sum.coefficients.iter().enumerate() {
            write!(f, " (* {} y{c}_{v})", Number(coefficient))?;
        }
        f.write_str(")")
    }
}
