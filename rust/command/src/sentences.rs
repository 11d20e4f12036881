//! A sentence for each number that the kit refuses with.

use crate::inputs::Inputs;
use crate::shape::{counted, Shape};
use crate::tasks::Kind;

/// What was refused, and all that its sentence speaks of; clause and values are those of a broken instance, else 0.
pub struct Case<'a> {
    pub kind: Kind,
    pub inputs: &'a Inputs,
    pub number: u32,
    pub place: u64,
    pub clause: u64,
    pub values: [i32; 16],
}

/// What the place of a refusal is counted in, for those whose place can be shown in a file.
enum Points {
    Nowhere,
    Book,
    List,
    Model,
}
use Points::{Book, List, Model, Nowhere};

type Sentence = fn(&Case) -> String;

/// Each number with what its place points into, and its sentence.
const SENTENCES: [(u32, Points, Sentence); 25] = [
    (1, Nowhere, |c| of_book(format!("it has {}, and a book has 16 to 60,000", counted(c.book().len(), "byte")))),
    (2, Book, |c| of_book(trailer(c))),
    (3, Book, |c| of_book(arity(c))),
    (4, Book, |c| of_book(index(c))),
    (5, Book, |c| of_book(format!("{}, and there is no such relation", byte(c)))),
    (6, Book, |c| of_book(format!("{}, over 16 variables or a variable that the clause does not have", byte(c)))),
    (7, Book, |c| of_book(node(c))),
    (8, Nowhere, |c| of_book(format!("a clause's record runs into the index, which starts at byte {}", c.place()))),
    (9, Nowhere, room),
    (10, Nowhere, goal),
    (11, Nowhere, |c| format!("the list has {}, and {LIST_LIMITS}", counted(c.list().len(), "number"))),
    (12, List, |c| format!("{} names clause {}, which the book does not have", step(c), c.listed())),
    (13, List, ends),
    (14, List, outside),
    (15, List, |c| format!("{} makes the constraint of clause {} false", step(c), c.listed())),
    (16, List, body),
    (17, Nowhere, missed),
    (18, List, |c| format!("{}, the flag of relation {} in the first state, is not 0", listed(c), c.place())),
    (19, List, |c| format!("{}, is the first that differs from the next state that is due", listed(c))),
    (20, Nowhere, |c| format!("the trace would have {}, and {LIST_LIMITS}", counted(c.place(), "number"))),
    (21, Model, |c| of_model(node(c))),
    (22, Model, |c| of_model(left(c))),
    (23, Model, |c| {
        of_model(format!("the query's constraint, which starts at byte {}, is true, and it must be false", c.place()))
    }),
    (24, Nowhere, |_| "the clauses have over 1,000,000 assignments in all, and no more are examined".into()),
    (25, Nowhere, broken),
];

const LIST_LIMITS: &str = "a list has 1 to 1,000,000";

/// The line that says what was refused.
pub fn refused(case: &Case) -> String {
    let (number, place) = (case.number, case.place);
    let Some((_, points, sentence)) = SENTENCES.iter().find(|entry| entry.0 == number) else {
        return format!("refused {number} at {place}\n");
    };
    let spot = match points {
        Nowhere => None,
        Book => case.inputs.book.spot(case.place()),
        List => case.inputs.list.spot(case.place()),
        Model => case.inputs.model.spot(case.place()),
    };
    let spot = spot.map_or(String::new(), |spot| format!(" ({spot})"));
    format!("refused {number} at {place}: {}{spot}\n", sentence(case))
}

impl Case<'_> {
    fn place(&self) -> usize {
        self.place as usize
    }

    fn book(&self) -> &[u8] {
        &self.inputs.book.bytes
    }

    fn shape(&self) -> Shape<'_> {
        Shape::of(self.book())
    }

    fn list(&self) -> &[i32] {
        &self.inputs.list.numbers
    }

    /// The list's number at the place.
    fn listed(&self) -> i32 {
        self.list()[self.place()]
    }
}

/// The book's byte at the place.
fn byte(c: &Case) -> String {
    format!("byte {} is {}", c.place(), c.book()[c.place()])
}

/// The list's number at the place.
fn listed(c: &Case) -> String {
    format!("number {} of the list, {}", c.place(), c.listed())
}

fn of_book(what: String) -> String {
    format!("the book is refused: {what}")
}

fn of_model(what: String) -> String {
    format!("of the model: {what}")
}

fn trailer(c: &Case) -> String {
    let (place, shape, length) = (c.place(), c.shape(), counted(c.book().len(), "byte"));
    let fields = format!("{}, index start {}, last bytes {:?}, for {length} in all", shape.summary(), shape.index, shape.version);
    format!("a field of its trailer, the 16 bytes from byte {place} on, is against its rule: {fields}")
}

fn arity(c: &Case) -> String {
    let query = c.shape().query;
    format!("{}, the arity of relation {}; an arity is 0 to 8, and 0 for the query relation, {query}", byte(c), c.place())
}

/// The place of 4 lies in the index, or before it.
fn index(c: &Case) -> String {
    let (shape, place) = (c.shape(), c.place());
    if place < shape.index {
        return format!("bytes are left between the last clause and the index, from byte {place} on");
    }
    let clause = (place - shape.index) / 2;
    format!(
        "the index entry at byte {place} says that clause {clause} starts at byte {}, but reading stands elsewhere",
        shape.entry(place)
    )
}

fn node(c: &Case) -> String {
    let faults =
        "an unknown kind, a node too many (over 64) or too deep (over 16), a divisor 0, or a remainder not below its divisor";
    format!("a constraint has at byte {} {faults}", c.place())
}

fn room(c: &Case) -> String {
    let thing = if c.kind == Kind::Print { "byte" } else { "number" };
    format!("the room that was lent is too short, and {} are needed", counted(c.place(), thing))
}

fn goal(c: &Case) -> String {
    let (shape, goal) = (c.shape(), &c.inputs.goal);
    if goal.relation >= shape.relations as u64 {
        return format!(
            "the goal's relation is {}, and the book has {}, counted from 0",
            goal.relation,
            counted(shape.relations, "relation")
        );
    }
    let [places, values] = [counted(shape.arity(goal.relation as usize), "place"), counted(goal.values.len(), "value")];
    format!("the goal has {values}, and relation {} has {places}", goal.relation)
}

fn step(c: &Case) -> String {
    format!("the step that begins at number {} of the list", c.place())
}

/// Only the first state of a trace begins at number 0.
fn ends(c: &Case) -> String {
    match (c.kind.reads_trace(), c.place()) {
        (true, 0) => "the list ends inside the first state, which begins at number 0".into(),
        (true, _) => format!("the list ends inside {}, its next state included", step(c)),
        (false, _) => format!("the list ends inside {}", step(c)),
    }
}

fn outside(c: &Case) -> String {
    let shape = c.shape();
    let first = c.kind.reads_trace() && c.place() < shape.state();
    let what = if first { "a place of the first state" } else { "a value of a step" };
    format!("{}, {what}, is outside the {}", listed(c), shape.window())
}

fn body(c: &Case) -> String {
    let step = step(c);
    if c.kind.reads_trace() {
        return format!("{step} has a body that the state before it does not meet");
    }
    if c.place() == 0 {
        return format!(
            "the first step is by clause {}, which has a body, and a derivation begins with a clause without one",
            c.listed()
        );
    }
    if !c.shape().has_body(c.listed() as usize) {
        return format!("{step} is by clause {}, which has no body, and only the first step may be", c.listed());
    }
    format!("{step} has a body that the fact before it does not meet")
}

fn missed(c: &Case) -> String {
    let end = if c.kind.reads_trace() { "the last state does not meet the goal" } else { "the last head is not the goal" };
    format!("{end}; the list has {}", counted(c.place(), "number"))
}

/// The place of 22 is the model's length, or lies before it.
fn left(c: &Case) -> String {
    match c.place() {
        place if place < c.inputs.model.bytes.len() => format!("bytes are left after its last constraint, from byte {place} on"),
        place => format!("it ends after {}, before its last constraint does", counted(place, "byte")),
    }
}

fn broken(c: &Case) -> String {
    let variables = c.shape().variables(c.clause as usize);
    let values: Vec<_> = c.values.iter().take(variables).enumerate().map(|(i, value)| format!("y{i} = {value}")).collect();
    let with = if values.is_empty() { String::new() } else { format!(" with {}", values.join(", ")) };
    let examined = counted(c.place(), "assignment");
    format!("the instance of clause {}{with} breaks the model, the last of {examined} examined", c.clause)
}

#[cfg(test)]
mod tests;
