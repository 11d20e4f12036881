//! The commands: what each is called, what it takes, and its help.

use std::fmt::Write;

#[derive(Clone, Copy, Debug, PartialEq, Eq)]
pub enum Kind {
    Print,
    Check,
    Derivation,
    Trace,
    Model,
    ToTrace,
    ToDerivation,
    Constraint,
}

impl Kind {
    /// Whether it writes a text or a list, which may go to a file.
    pub fn writes(self) -> bool {
        matches!(self, Kind::Print | Kind::ToTrace | Kind::ToDerivation)
    }

    /// Whether the list that it reads is a trace.
    pub fn reads_trace(self) -> bool {
        matches!(self, Kind::Trace | Kind::ToDerivation)
    }
}

#[derive(Clone, Copy, Debug, PartialEq, Eq)]
pub enum Operand {
    Book,
    List,
    Goal,
    Model,
    Clause,
}

impl Operand {
    pub fn is_file(self) -> bool {
        matches!(self, Operand::Book | Operand::List | Operand::Model)
    }

    fn explained(self) -> &'static str {
        match self {
            Operand::Book => BOOK_HELP,
            Operand::List => LIST_HELP,
            Operand::Goal => GOAL_HELP,
            Operand::Model => MODEL_HELP,
            Operand::Clause => "CLAUSE is a clause's number; the first is 0.\n",
        }
    }
}

#[derive(Debug)]
pub struct Task {
    pub kind: Kind,
    pub name: &'static str,
    pub operands: &'static [Operand],
    what: &'static str,
    more: &'static str,
}

use Operand::{Book, Clause, Goal, List, Model};

pub const TASKS: [Task; 8] = [
    Task { kind: Kind::Print, name: "print", operands: &[Book], what: "print a book's transition system in VMT form", more: "" },
    Task {
        kind: Kind::Check,
        name: "check",
        operands: &[Book],
        what: "check a book",
        more: "An accepted book's window, relations, clauses and query are told.\n",
    },
    Task {
        kind: Kind::Derivation,
        name: "derivation",
        operands: &[Book, List, Goal],
        what: "check a derivation of a goal",
        more: "",
    },
    Task { kind: Kind::Trace, name: "trace", operands: &[Book, List, Goal], what: "check a trace that reaches a goal", more: "" },
    Task {
        kind: Kind::Model,
        name: "model",
        operands: &[Book, Model],
        what: "check a model, which shows that the query is not derivable",
        more: "It is told how many assignments were examined, and the first instance that breaks the model.\n",
    },
    Task {
        kind: Kind::ToTrace,
        name: "to-trace",
        operands: &[Book, List, Goal],
        what: "convert a derivation to a trace",
        more: "",
    },
    Task {
        kind: Kind::ToDerivation,
        name: "to-derivation",
        operands: &[Book, List, Goal],
        what: "convert a trace to a derivation",
        more: "",
    },
    Task {
        kind: Kind::Constraint,
        name: "constraint",
        operands: &[Book, Clause],
        what: "show the constraint of a clause",
        more: "It is told where the constraint starts in the book, how many bytes it has, which they are, and what they say\n\
               (y0 is the clause's first variable).\n",
    },
];

const FORM_HELP: &str = "\
Books and models are binary files, or hexadecimal text: pairs of digits with white space and | between them as you
like, and comments from # to the end of the line. A file with a control byte that is not white space (00 to 08, 0B,
0E to 1F) is binary, any other is text. No text has such a byte, and each accepted book (it ends with 00) and each
accepted model (it begins with 00 to 06) has one. To decide it yourself:
  --hex               read the book and the model as hexadecimal text
  --binary            read them as bytes
";

const OUTPUT_HELP: &str = "  -o, --output FILE   write there; without it, or for -, what is written goes to standard output.
                      The file is replaced as a whole, and stays as it was if anything is refused.
";

const BOOK_HELP: &str = "BOOK is a file with a clause book.\n";

const MODEL_HELP: &str = "MODEL is a file with one constraint for each relation.\n";

const LIST_HELP: &str = "\
LIST is a file of decimal numbers with spaces, commas or line ends between them, and comments from # to the end of the
line. A derivation is a clause number and the values of its variables, step after step; a trace is the first state, then
for each step the clause number, the values, and the next state.
";

const GOAL_HELP: &str =
    "GOAL is a relation and its values: 1 is relation 1 without values, 0:3,-4 relation 0 with values 3 and -4.\n";

const ANSWER_HELP: &str = "\
A file named - is standard input (once). The answer is a line on standard output: 'accepted', or 'refused N at P' and
what that says; places are counted from 0. Exit status: 0 accepted or written, 1 refused, 2 misuse.
";

impl Task {
    pub fn named(name: &str) -> Option<&'static Task> {
        TASKS.iter().find(|task| task.name == name)
    }

    /// The command with what it takes.
    pub fn usage(&self) -> String {
        let operands: String = self.operands.iter().map(|operand| format!(" {operand:?}").to_uppercase()).collect();
        format!("ruahmitz {}{operands}", self.name)
    }

    pub fn help(&self) -> String {
        let option = if self.kind.writes() { " [-o FILE]" } else { "" };
        let operands: String = self.operands.iter().map(|operand| operand.explained()).collect();
        let output = if self.kind.writes() { OUTPUT_HELP } else { "" };
        format!("{}{option}: {}\n{}\n{operands}\n{FORM_HELP}{output}\n{ANSWER_HELP}", self.usage(), self.what, self.more)
    }
}

/// The help of the whole.
pub fn help() -> String {
    let mut text = "ruahmitz: what a clause book says, and whether what is claimed of it holds\n\n".to_string();
    for task in &TASKS {
        let _ = writeln!(text, "  {:40}{}", task.usage(), task.what);
    }
    text += "  ruahmitz help [COMMAND]                 this help, or a command's; also -h and --help\n";
    text += "  ruahmitz --version\n\n";
    for part in [LIST_HELP, GOAL_HELP, "\n", FORM_HELP, OUTPUT_HELP, "\n", ANSWER_HELP] {
        text += part;
    }
    text
}
