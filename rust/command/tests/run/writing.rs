//! What is written, and where.

use crate::books::{book, counter, B, D, T};
use crate::folder::Folder;
use std::fs;
use std::process::Stdio;

/// Document 01's small book and its text.
const SMALL: &str = "00 00 FF 00 00 01 00 00000000 00000000 05 00 01 00 01 00 01 00";
const TEXT: &str = "(declare-fun l0 () Bool)
(declare-fun l0n () Bool)
(define-fun sl0 () Bool (! l0 :next l0n))
(define-fun init () Bool (! (and true (not l0)) :init true))
(define-fun trans () Bool (! (or false false (and true true l0n)) :trans true))
(define-fun prop () Bool (! (not l0) :invar-property 0))
";

fn small() -> Folder {
    Folder::with(&[("s", SMALL.as_bytes()), ("b", &counter(3)), ("d", D.as_bytes()), ("t", T.as_bytes()), ("old", b"old")])
}

#[test]
fn to_standard_output() {
    let folder = small();
    folder.says("print s", 0, TEXT);
    folder.says("print s -o -", 0, TEXT);
    folder.says("to-trace b d 1", 0, T);
    folder.says("to-derivation b t 1", 0, D);
    assert!(folder.run_on("print -", B.as_bytes()).out.contains("(= (+ 0 (- 3) (* 1 y2_0)) 0)"));
}

#[test]
fn to_a_file() {
    for form in ["-o new", "-onew", "--output new", "--output=new"] {
        let folder = small();
        folder.says(&format!("print s {form}"), 0, &format!("written: {} bytes\n", TEXT.len()));
        assert_eq!(folder.get("new"), TEXT);
        folder.says(&format!("to-trace {form} b d 1"), 0, "written: 31 numbers\n");
        assert_eq!(folder.get("new"), T);
        folder.says(&format!("to-derivation b {form} t 1"), 0, "written: 13 numbers\n");
        assert_eq!(folder.get("new"), D);
        assert_eq!(folder.names(), ["b", "d", "new", "old", "s", "t"]);
    }
}

#[test]
fn a_file_may_replace_what_it_was_made_from() {
    let folder = small();
    folder.says("to-trace b d 1 -o d", 0, "written: 31 numbers\n");
    folder.says("to-derivation b d 1 -o d", 0, "written: 13 numbers\n");
    assert_eq!(folder.get("d"), D);
}

#[test]
fn each_step_has_its_line() {
    let one = vec![0, 0xff, 0, 0];
    let two = vec![3, 0, 1, 1, 2, 0];
    let folder = Folder::with(&[("b", &book(&[0, 2], &[one, two], -1, 1, 0)), ("d", b"0 1 -1 0 1")]);
    folder.says("to-trace b d 1:0,1", 0, "0 0 -1 -1,\n0 1 0 -1 -1,\n1 -1 0 1 1 1 0 1\n");
    folder.put("t", "0 0 0 0 0 1 0 0 0 0 1 0 0 0 1 0 1 1 1 1 1 1");
    folder.says("to-derivation b t 1:1,1", 0, "0,\n1 0 1 1\n");
}

#[test]
fn nothing_is_written_after_a_refusal_or_misuse() {
    let folder = small();
    folder.put("bad", [0; 16]);
    folder.put("junk", "0 0, x");
    let before = folder.names();
    for (line, status) in [
        ("print bad", 1),
        ("to-trace b t 1", 1),
        ("to-derivation b d 1", 1),
        ("to-trace b d 7", 1),
        ("to-trace b junk 1", 2),
        ("to-trace b missing 1", 2),
        ("to-trace b d x", 2),
        ("print s --hex --binary", 2),
        ("print s s", 2),
    ] {
        for file in ["new", "old"] {
            let ran = folder.run(&format!("{line} -o {file}"));
            assert_eq!(ran.status, status, "{line}: {ran:?}");
        }
        assert_eq!((folder.names(), &*folder.get("old")), (before.clone(), "old"), "{line}");
    }
}

#[test]
fn a_file_that_cannot_be_written_is_misuse() {
    let folder = small();
    fs::create_dir(folder.path.join("folder")).unwrap();
    let before = folder.names();
    for path in ["folder", ".", "..", "missing/new", "b/new", "/dev/full", "folder/"] {
        let ran = folder.run(&format!("print s -o {path}"));
        assert_eq!((ran.status, &*ran.out), (2, ""), "{path}");
        assert!(ran.err.starts_with(&format!("ruahmitz: {path} cannot be written: ")), "{ran:?}");
    }
    let ran = folder.command(&["print", "s", "-o", ""]).output().unwrap();
    assert_eq!(ran.status.code(), Some(2));
    assert_eq!(folder.names(), before);
    assert_eq!(fs::read_dir(folder.path.join("folder")).unwrap().count(), 0);
}

#[test]
fn a_device_is_written_to() {
    small().says("print s -o /dev/null", 0, &format!("written: {} bytes\n", TEXT.len()));
    assert!(!fs::metadata("/dev/null").unwrap().is_file());
}

#[cfg(unix)]
#[test]
fn links_and_permissions_stay() {
    use std::os::unix::fs::{symlink, PermissionsExt};
    let folder = small();
    symlink("old", folder.path.join("link")).unwrap();
    fs::set_permissions(folder.path.join("old"), fs::Permissions::from_mode(0o640)).unwrap();
    folder.says("print s -o link", 0, &format!("written: {} bytes\n", TEXT.len()));
    assert_eq!(folder.get("old"), TEXT);
    assert!(fs::symlink_metadata(folder.path.join("link")).unwrap().is_symlink());
    assert_eq!(fs::metadata(folder.path.join("old")).unwrap().permissions().mode() & 0o777, 0o640);
}

#[test]
fn a_full_standard_output_is_told() {
    let folder = small();
    for words in [&["print", "s"][..], &["check", "b"], &["help"]] {
        let full = fs::OpenOptions::new().write(true).open("/dev/full").unwrap();
        let done = folder.command(words).stdout(full).output().unwrap();
        assert_eq!(done.status.code(), Some(2));
        assert!(String::from_utf8(done.stderr).unwrap().starts_with("ruahmitz: standard output cannot be written: "));
    }
}

#[test]
fn a_closed_pipe_ends_it_quietly() {
    let folder = small();
    folder.put("bad", [0; 16]);
    for (words, status) in [(&["print", "s"][..], 0), (&["check", "b"], 0), (&["check", "bad"], 1), (&["help"], 0)] {
        let mut child = folder.command(words).stdin(Stdio::piped()).spawn().unwrap();
        drop(child.stdout.take());
        let done = child.wait_with_output().unwrap();
        assert_eq!((done.status.code(), done.stderr), (Some(status), vec![]), "{words:?}");
    }
}
