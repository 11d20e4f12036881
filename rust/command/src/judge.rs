//! Asks the kit, and puts what it says into words.

use crate::inputs::Inputs;
use crate::lists::lines;
use crate::readable::readable;
use crate::sentences::{refused, Case};
use crate::shape::{counted, Shape};
use crate::tasks::Kind;
use ruahmitz_kit::{self as kit, Answer};

pub enum Outcome {
    Accepted(String),
    Refused(String),
    Written { text: Vec<u8>, size: String },
}

pub fn judge(kind: Kind, inputs: &Inputs) -> Outcome {
    let (book, list) = (&inputs.book.bytes[..], &inputs.list.numbers[..]);
    let (relation, values) = (inputs.goal.relation, &inputs.goal.values[..]);
    let judged = Judged { kind, inputs };
    match kind {
        Kind::Check => judged.told(kit::book(book), || format!(": {}", Shape::of(book).summary())),
        Kind::Derivation => judged.told(kit::derivation(book, list, relation, values), String::new),
        Kind::Trace => judged.told(kit::trace(book, list, relation, values), String::new),
        Kind::Model => judged.model(),
        Kind::Print => judged.filled("byte", |room| kit::text(book, room), |text| text),
        Kind::ToTrace => judged.list(true, |room| kit::to_trace(book, list, relation, values, room)),
        Kind::ToDerivation => judged.list(false, |room| kit::to_derivation(book, list, relation, values, room)),
        Kind::Constraint => judged.constraint(),
    }
}

struct Judged<'a> {
    kind: Kind,
    inputs: &'a Inputs,
}

impl Judged<'_> {
    fn refused(&self, answer: Answer) -> Outcome {
        self.broken(answer, 0, [0; 16])
    }

    /// A refusal, with the clause and values of an instance.
    fn broken(&self, Answer { number, place }: Answer, clause: u64, values: [i32; 16]) -> Outcome {
        Outcome::Refused(refused(&Case { kind: self.kind, inputs: self.inputs, number, place, clause, values }))
    }

    /// A check's answer, with what more there is to say of what is accepted.
    fn told(&self, answer: Answer, more: impl Fn() -> String) -> Outcome {
        match answer.number {
            0 => Outcome::Accepted(format!("accepted{}\n", more())),
            _ => self.refused(answer),
        }
    }

    fn model(&self) -> Outcome {
        let reply = kit::model(&self.inputs.book.bytes, &self.inputs.model.bytes);
        let answer = Answer { number: reply.number, place: reply.place };
        match answer.number {
            0 => Outcome::Accepted(format!("accepted: {} examined\n", counted(reply.count as usize, "assignment"))),
            _ => self.broken(answer, reply.clause, reply.values),
        }
    }

    /// What a call writes: measured with an empty room, then written into one of that size.
    fn filled<T: Clone + Default>(
        &self,
        thing: &str,
        call: impl Fn(&mut [T]) -> Answer,
        text: impl Fn(Vec<T>) -> Vec<u8>,
    ) -> Outcome {
        const SHORT: u32 = 9;
        let mut room = Vec::new();
        let mut answer = call(&mut room);
        if answer.number == SHORT {
            room.resize(answer.place as usize, T::default());
            answer = call(&mut room);
        }
        match answer.number {
            0 => Outcome::Written { size: counted(room.len(), thing), text: text(room) },
            _ => self.refused(answer),
        }
    }

    fn list(&self, trace: bool, call: impl Fn(&mut [i32]) -> Answer) -> Outcome {
        self.filled("number", call, |numbers| lines(&numbers, &Shape::of(&self.inputs.book.bytes), trace))
    }

    fn constraint(&self) -> Outcome {
        let (book, clause) = (&self.inputs.book.bytes[..], self.inputs.clause);
        let answer = kit::book(book);
        if answer.number != 0 {
            return self.refused(answer);
        }
        let shape = Shape::of(book);
        let part = kit::constraint(book, clause);
        if part.length == 0 {
            let clauses = counted(shape.clauses, "clause");
            return Outcome::Refused(format!("refused: the book has {clauses}, counted from 0, and so no clause {clause}\n"));
        }
        let start = part.start as usize;
        let bytes = &book[start..start + part.length];
        let pairs: String = bytes.iter().map(|byte| format!(" {byte:02X}")).collect();
        let words = readable(bytes, shape.variables(clause as usize));
        Outcome::Accepted(format!("start: {start}\nlength: {}\nbytes:{pairs}\nconstraint: {words}\n", part.length))
    }
}
