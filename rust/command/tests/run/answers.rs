//! What the checks say.

use crate::books::{book, changed, counter, B, D, T};
use crate::folder::Folder;

fn small() -> Folder {
    Folder::with(&[
        ("b", &counter(3)),
        ("b.hex", B.as_bytes()),
        ("b2", &changed(&counter(3), 48, 2)),
        ("d", D.as_bytes()),
        ("t", T.as_bytes()),
        ("m", &[0, 3, 0]),
        ("m.hex", b"00 # the counter may have any value\n| 03 00"),
    ])
}

#[test]
fn document_01_book_is_accepted_in_both_forms() {
    let folder = small();
    let words = "accepted: window 0 to 3, 2 relations, 3 clauses, query relation 1\n";
    for line in ["check b", "check b.hex", "check --binary b", "check b.hex --hex", "check -- b", "check ./b"] {
        folder.says(line, 0, words);
    }
    for line in ["derivation b d 1", "derivation b.hex d 1", "trace b t 1", "trace --hex b.hex t 1"] {
        folder.says(line, 0, "accepted\n");
    }
    for line in ["derivation --binary b.hex d 1", "check --binary b.hex"] {
        let ran = folder.run(line);
        assert!(ran.status == 1 && ran.out.starts_with("refused 2 at "), "{ran:?}");
    }
}

#[test]
fn goals_with_values() {
    let book = book(&[2, 0], &[vec![2, 0xff, 0, 0, 1, 0]], -3, 3, 1);
    let folder = Folder::with(&[("b", &book), ("d", "0 −3 2".as_bytes())]);
    folder.says("derivation b d 0:-3,2", 0, "accepted\n");
    folder.says("derivation b d 0:−3,2", 0, "accepted\n");
    folder.says("derivation b d 0:3,2", 1, "refused 17 at 3: the last head is not the goal; the list has 3 numbers\n");
    folder.says("to-trace b d 0:-3,2", 0, "0 0 -3 -3,\n0 -3 2 1 0 -3 2\n");
}

#[test]
fn standard_input_stands_for_any_file() {
    let folder = small();
    for (line, input) in [
        ("derivation - d 1", &counter(3)[..]),
        ("derivation - d 1", B.as_bytes()),
        ("derivation b - 1", D.as_bytes()),
        ("derivation b - 1", b"0 0 # comment 7\n, 1 0 1, 1 1 2 1,2,3 2 3"),
        ("trace b - 1", T.as_bytes()),
    ] {
        let ran = folder.run_on(line, input);
        assert_eq!((ran.status, &*ran.out), (0, "accepted\n"), "{line}");
    }
    assert_eq!(folder.run_on("model b2 -", b"00 03 00").out, "accepted: 15 assignments examined\n");
    let ran = folder.run_on("derivation b - 1", b"0 0,\n1 1 2");
    assert!(ran.out.ends_with("does not meet (standard input, line 2, column 1)\n"), "{ran:?}");
}

#[test]
fn models() {
    let folder = small();
    for model in ["m", "m.hex"] {
        let words =
            "refused 25 at 24: the instance of clause 2 with y0 = 3 breaks the model, the last of 24 assignments examined\n";
        folder.says(&format!("model b {model}"), 1, words);
        folder.says(&format!("model b2 {model}"), 0, "accepted: 15 assignments examined\n");
    }
    folder.put("b0", book(&[0], &[vec![0, 0xff, 0, 0]], 0, 0, 0));
    folder.put("false", [3, 0]);
    folder.says(
        "model b0 false",
        1,
        "refused 25 at 1: the instance of clause 0 breaks the model, the last of 1 assignment examined\n",
    );
}

#[test]
fn constraints() {
    let folder = small();
    folder.says("constraint b 2", 0, "start: 31\nlength: 7\nbytes: 02 01 00 FD FF FF FF\nconstraint: -3 + y0 = 0\n");
    folder.says(
        "constraint b.hex 1",
        0,
        "start: 18\nlength: 9\nbytes: 02 01 00 FF FF 01 00 00 00\nconstraint: 1 + y0 - y1 = 0\n",
    );
    for clause in ["3", "65536", "18446744073709551615"] {
        let words = format!("refused: the book has 3 clauses, counted from 0, and so no clause {clause}\n");
        folder.says(&format!("constraint b {clause}"), 1, &words);
    }
    let deep = vec![1, 0xff, 0, 3, 5, 4, 0, 1, 2, 0, 5, 0, 0, 0, 6, 0xff, 0xff, 0, 0, 0, 0, 7, 0, 6, 0];
    folder.put("deep", book(&[0], &[deep], -1, 1, 0));
    let ran = folder.run("constraint deep 0");
    assert!(ran.out.starts_with("start: 4\nlength: 22\nbytes: 03 05 04 00 01 "), "{ran:?}");
    assert!(ran.out.ends_with("constraint: not ((true and 5 + 2*y0 <= 0) or (0 <= -y0 and (-y0) mod 7 = 6))\n"), "{ran:?}");
}

/// Each refusal of a book, by each command.
#[test]
fn refused_books() {
    let b = counter(3);
    let left = [&b[..38], &[0], &changed(&b, 52, 39)[38..]].concat();
    let cases: [(&str, Vec<u8>); 10] = [
        ("refused 1 at 0", vec![0; 15]),
        ("refused 1 at 0", vec![0; 60001]),
        ("refused 2 at 44", changed(&b, 58, 2)),
        ("refused 3 at 0", changed(&b, 0, 9)),
        ("refused 4 at 40", changed(&b, 40, 14)),
        ("refused 4 at 38", left),
        ("refused 5 at 4", changed(&b, 4, 2)),
        ("refused 6 at 5", changed(&b, 5, 1)),
        ("refused 7 at 6", changed(&b, 6, 7)),
        ("refused 8 at 4", book(&[0], &[vec![0, 0xff, 0]], 0, 0, 0)),
    ];
    let folder = small();
    for (words, book) in cases {
        folder.put("bad", book);
        let lines =
            ["check bad", "print bad", "derivation bad d 9", "trace bad t 9", "to-trace bad d 9", "to-derivation bad t 9"];
        for line in lines.into_iter().chain(["model bad m", "constraint bad 99"]) {
            let ran = folder.run(line);
            assert!(ran.out.starts_with(&format!("{words}: the book is refused: ")), "{line}: {ran:?}");
            assert_eq!((ran.status, ran.out.lines().count(), &*ran.err), (1, 1, ""), "{line}");
        }
    }
}

#[test]
fn a_place_in_text_is_shown() {
    let folder = small();
    folder.put("bad.hex", B.replacen("01 FF", "# a record\n 01 FF", 1).replacen("FF 00 00", "FF 00 01", 1));
    folder.put("bad model", "00\n07");
    let ran = folder.run("check bad.hex");
    assert!(ran.out.starts_with("refused 6 at 5: ") && ran.out.ends_with(" (bad.hex, line 2, column 11)\n"), "{ran:?}");
    let model = folder.command(&["model", "b", "bad model"]).output().unwrap();
    let words = String::from_utf8(model.stdout).unwrap();
    assert!(words.starts_with("refused 21 at 1: ") && words.ends_with(" (bad model, line 2, column 1)\n"), "{words}");
}

const DERIVATIONS: [&str; 2] = ["derivation", "to-trace"];
const TRACES: [&str; 2] = ["trace", "to-derivation"];

/// The refusals of lists and goals: commands, list, goal, answer.
const LISTS: &[([&str; 2], &str, &str, &str)] = &[
    (DERIVATIONS, D, "2", "10 at 0"),
    (DERIVATIONS, D, "1:0", "10 at 0"),
    (DERIVATIONS, D, "18446744073709551615", "10 at 0"),
    (DERIVATIONS, "", "1", "11 at 0"),
    (DERIVATIONS, "0 0, 3 0", "1", "12 at 2"),
    (DERIVATIONS, "-1", "1", "12 at 0"),
    (DERIVATIONS, "0 0, 1 0", "1", "13 at 2"),
    (DERIVATIONS, "0 4", "1", "14 at 1"),
    (DERIVATIONS, "0 1", "1", "15 at 0"),
    (DERIVATIONS, "1 0 1", "1", "16 at 0"),
    (DERIVATIONS, "0 0, 0 0", "1", "16 at 2"),
    (DERIVATIONS, "0 0, 1 1 2", "1", "16 at 2"),
    (DERIVATIONS, "0 0, 1 0 1, 1 1 2, 1 2 3", "1", "17 at 11"),
    (TRACES, T, "0", "10 at 0"),
    (TRACES, "# nothing", "1", "11 at 0"),
    (TRACES, "0 1 0", "1", "18 at 1"),
    (TRACES, "0 0 0, 7 0 0 0", "1", "12 at 3"),
    (TRACES, "0 0", "1", "13 at 0"),
    (TRACES, "0 0 0, 0 0 1", "1", "13 at 3"),
    (TRACES, "0 0 9", "1", "14 at 2"),
    (TRACES, "0 0 0, 0 9 1 0 0", "1", "14 at 4"),
    (TRACES, "0 0 0, 0 1 1 0 0", "1", "15 at 3"),
    (TRACES, "0 0 0, 2 3 0 1 0", "1", "16 at 3"),
    (TRACES, "0 0 0, 0 1 0 0", "1", "13 at 3"),
    (TRACES, "0 0 0, 0 0 1 1 0", "1", "19 at 6"),
    (TRACES, "0 0 0", "1", "17 at 3"),
];

#[test]
fn refused_lists() {
    let folder = small();
    for (commands, list, goal, answer) in LISTS {
        folder.put("l", list);
        for command in commands {
            let ran = folder.run(&format!("{command} b l {goal}"));
            assert!(ran.out.starts_with(&format!("refused {answer}: ")), "{command} {list}: {ran:?}");
            assert_eq!((ran.status, ran.out.lines().count(), &*ran.err), (1, 1, ""));
        }
    }
}

#[test]
fn refused_models() {
    let wide = vec![2, 0xff, 0, 0];
    let folder = small();
    folder.put("wide", book(&[0, 0], &[vec![2, 0xff, 0, 0]], 1, 1000, 1));
    folder.put("wider", book(&[0, 0], &[wide, vec![0, 0xff, 0, 0]], 1, 1000, 1));
    for (book, model, answer) in [
        ("b", "00 07", "refused 21 at 1: "),
        ("b", "00", "refused 22 at 1: "),
        ("b", "00 03 00 05", "refused 22 at 3: "),
        ("b", "00 00", "refused 23 at 1: "),
        ("wider", "00 03 00", "refused 24 at 0: "),
        ("wide", "03 00 03 00", "refused 25 at 1: the instance of clause 0 with y0 = 1, y1 = 1 breaks"),
    ] {
        folder.put("model", model);
        let ran = folder.run(&format!("model {book} model"));
        assert!(ran.status == 1 && ran.out.starts_with(answer), "{book} {model}: {ran:?}");
    }
    folder.says("model wide m", 0, "accepted: 1000000 assignments examined\n");
    folder.put("empty", "");
    let ran = folder.run("model --binary b empty");
    assert!(ran.status == 1 && ran.out.starts_with("refused 22 at 0: "), "{ran:?}");
}
