//! Help, wrong usage, and files that can't be read.
use crate::{folder, palgwern};

#[test]
fn help() {
    for words in
        [&["--help"][..], &[], &["check", "--help"], &["show", "--help"], &["from-css", "--help"], &["to-css", "-h"], &["--version"]]
    {
        let run = palgwern(words, b"");
        assert_eq!((run.status, run.output.starts_with("palgwern")), (Some(0), true), "{words:?}");
    }
}

#[test]
fn wrong_usage() {
    for words in [
        &["chek"][..],
        &["check"],
        &["show"],
        &["show", "a", "b", "c"],
        &["to-css"],
        &["show", "-", "-o"],
        &["check", "--fast", "-"],
        &["check", "-o", "x", "-"],
    ] {
        let run = palgwern(words, b"");
        assert_eq!((run.status, run.output.is_empty(), run.errors.starts_with("palgwern: ")), (Some(2), true, true), "{words:?}");
    }
}

#[test]
fn files() {
    let missing = folder("usage").join("missing").display().to_string();
    for words in [["check", &missing], ["show", &missing], ["from-css", &missing], ["to-css", &missing]] {
        assert_eq!(palgwern(&words, b"").status, Some(2), "{words:?}");
    }
    assert_eq!(palgwern(&["show", "-", "-o", &format!("{missing}/no/such")], b"").status, Some(2));
    let both = palgwern(&["check", &missing, "-"], b"");
    assert_eq!((both.status, both.output.as_str()), (Some(2), "-: accepted: 0 columns, 0 rows, 0 placements\n"));
}

#[test]
fn refused() {
    for command in ["check", "show", "to-css"] {
        let run = palgwern(&[command, "-"], b"name\tc\n");
        assert_eq!(run.status, Some(1), "{command}");
        assert!((run.output + &run.errors).contains("line 1: refused by 1 (unread)"), "{command}");
    }
    let run = palgwern(&["from-css", "-"], b"\nwidth: 3em");
    assert_eq!((run.status, run.errors.as_str()), (Some(1), "-: line 2: width: a sheet can't say 3em; px, % and fr are its units\n"));
}
