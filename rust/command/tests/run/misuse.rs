//! Misuse: status 2, nothing on standard output, what was wrong and how to get help on standard error; and the help itself.

use crate::books::{counter, B, D};
use crate::folder::Folder;

fn small() -> Folder {
    Folder::with(&[
        ("b", &counter(3)),
        ("b.hex", B.as_bytes()),
        ("d", D.as_bytes()),
        ("m", &[0, 3, 0]),
        ("empty", b""),
        ("comment", b"# 00 01\n"),
        ("odd", b"00 01\n02 3"),
        ("letters", b"00 0x01"),
        ("words", b"0 0,\n1 zero 1"),
        ("wide", b"0 0, # one\n  1 2147483648"),
        ("binary", b"0 \xff\x00"),
    ])
}

/// Command line, what is said of it, and the command whose help is named.
const MESSAGES: &[(&str, &str, &str)] = &[
    ("", "a command is missing", ""),
    ("frob b", "no such command: 'frob'", ""),
    ("--frob", "a command comes first, and this is none: '--frob'", ""),
    ("-o f print b", "a command comes first, and this is none: '-o'", ""),
    ("help frob", "no such command: 'frob'", ""),
    ("help print check", "help takes one command at most", ""),
    ("print", "too few arguments: the form is ruahmitz print BOOK", " print"),
    ("print b b", "too many arguments: the form is ruahmitz print BOOK", " print"),
    ("derivation b d", "too few arguments: the form is ruahmitz derivation BOOK LIST GOAL", " derivation"),
    ("to-trace b d 1 1", "too many arguments: the form is ruahmitz to-trace BOOK LIST GOAL", " to-trace"),
    ("model b", "too few arguments: the form is ruahmitz model BOOK MODEL", " model"),
    ("constraint b", "too few arguments: the form is ruahmitz constraint BOOK CLAUSE", " constraint"),
    ("print b --frob", "no such option: '--frob'", " print"),
    ("print b -x", "no such option: '-x'", " print"),
    ("print b --outputs", "no such option: '--outputs'", " print"),
    ("print b -o", "-o takes a file", " print"),
    ("print b --output", "--output takes a file", " print"),
    ("print b -o x --output=y", "an output file is given twice", " print"),
    ("check b -o x", "check writes no file, so '-o' is out of place", " check"),
    ("model b m --output=x", "model writes no file, so '--output=x' is out of place", " model"),
    ("check --hex b --binary", "--hex and --binary exclude each other", " check"),
    ("derivation - - 1", "standard input (-) can be read for one argument only", " derivation"),
    ("model - -", "standard input (-) can be read for one argument only", " model"),
    ("check missing", "missing cannot be read: No such file", " check"),
    ("derivation b missing 1", "missing cannot be read: No such file", " derivation"),
    ("model b missing", "missing cannot be read: No such file", " model"),
    ("check .", ". cannot be read: Is a directory", " check"),
    ("check empty", "empty is empty; it is read as hexadecimal text (--binary reads it as bytes)", " check"),
    ("model b empty", "empty is empty; ", " model"),
    ("check -", "standard input is empty; ", " check"),
    ("check comment", "comment has no pair of hexadecimal digits; it is read as hexadecimal text", " check"),
    ("check odd", "odd, line 2, column 4: '3' is not in pairs of hexadecimal digits; ", " check"),
    ("model b letters", "letters, line 1, column 4: '0x01' is not in pairs of hexadecimal digits; ", " model"),
    ("check --hex b", "b, line 1, column 1: '\\u{1}", " check"),
    ("trace b words 1", "words, line 2, column 3: 'zero' is not a decimal number", " trace"),
    ("trace b wide 1", "wide, line 2, column 5: '2147483648' is not from -2147483648 to 2147483647", " trace"),
    ("trace b binary 1", "binary, line 1, column 3: '\u{fffd}\\0' is not a decimal number", " trace"),
    ("trace b d x", "goal 'x': 'x' is not a number from 0 to 18446744073709551615; a goal is such as 1 or 0:3,-4", " trace"),
    ("trace b d 0:", "goal '0:': '' is not a decimal number; a goal is such as", " trace"),
    ("trace b d 0:3000000000", "goal '0:3000000000': '3000000000' is not from -2147483648 to 2147483647; ", " trace"),
    ("trace b d -1", "no such option: '-1'", " trace"),
    ("constraint b x", "'x' is not a number from 0 to 18446744073709551615", " constraint"),
    ("constraint b 18446744073709551616", "'18446744073709551616' is not a number from 0 to", " constraint"),
];

#[test]
fn messages() {
    let folder = small();
    let before = folder.names();
    for (line, words, help) in MESSAGES {
        let ran = folder.run(line);
        assert_eq!((ran.status, &*ran.out), (2, ""), "{line}");
        assert!(ran.err.starts_with(&format!("ruahmitz: {words}")), "{line}: {}", ran.err);
        assert!(ran.err.ends_with(&format!("\nruahmitz: for help: ruahmitz help{help}\n")), "{line}: {}", ran.err);
        assert_eq!(ran.err.lines().count(), 2, "{line}");
    }
    assert_eq!(folder.names(), before);
}

#[test]
fn names_are_shown_safely() {
    let folder = small();
    for (name, words) in [("", "'' cannot be read: "), ("a\nb\u{1b}", "a?b? cannot be read: ")] {
        let done = folder.command(&["check", name]).output().unwrap();
        assert!(String::from_utf8(done.stderr).unwrap().starts_with(&format!("ruahmitz: {words}")), "{name:?}");
    }
}

#[test]
fn a_long_word_is_cut() {
    let folder = small();
    folder.put("l", "x".repeat(1_000_000));
    let err = folder.run("trace b l 1").err;
    assert!(err.contains(&format!(": '{}...' is not a decimal number", "x".repeat(40))), "{err}");
}

#[test]
fn help_and_version() {
    let folder = small();
    let whole = folder.run("help");
    assert_eq!(whole.status, 0);
    for line in ["--help", "-h"] {
        folder.says(line, 0, &whole.out);
    }
    for name in ["print", "check", "derivation", "trace", "model", "to-trace", "to-derivation", "constraint"] {
        assert!(whole.out.contains(&format!("\n  ruahmitz {name} BOOK")), "{name}");
        let own = folder.run(&format!("help {name}"));
        assert!(own.status == 0 && own.out.starts_with(&format!("ruahmitz {name} BOOK")), "{own:?}");
        assert!(own.out.lines().all(|line| line.chars().count() <= 120), "{name}");
        for line in [format!("{name} --help"), format!("{name} b -h"), format!("{name} --hex -h --frob")] {
            folder.says(&line, 0, &own.out);
        }
    }
    folder.says("--version", 0, &format!("ruahmitz {}\n", env!("CARGO_PKG_VERSION")));
    folder.says("-V", 0, &format!("ruahmitz {}\n", env!("CARGO_PKG_VERSION")));
}
