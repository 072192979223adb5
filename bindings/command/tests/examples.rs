//! The examples: each sheet, answer and picture is what its CSS gives today.
use crate::{beside, palgwern};
use std::fs::read_to_string;
use std::process::Command;

const EXAMPLES: &[&str] = &["readings", "bars", "keys", "bench-four-before", "bench-four-after"];

fn path(name: &str) -> String {
    beside("../examples").join(name).display().to_string()
}

fn output(words: &[&str]) -> String {
    let run = palgwern(words, b"");
    assert_eq!((run.status, run.errors.as_str()), (Some(0), ""), "{words:?}");
    run.output
}

#[test]
fn examples_are_made_anew() {
    for name in EXAMPLES {
        let [css, sheet, svg] = ["css", "sheet", "svg"].map(|kind| path(&format!("{name}.{kind}")));
        assert_eq!(output(&["from-css", &css]), read_to_string(&sheet).unwrap(), "{name}: examples/make writes it");
        assert!(output(&["show", &sheet]) == read_to_string(&svg).unwrap(), "{name}.svg is another: examples/make writes it");
    }
    let both = output(&["show", &path("bench-four-before.sheet"), &path("bench-four-after.sheet")]);
    assert!(both == read_to_string(path("bench-four.svg")).unwrap(), "bench-four.svg is another: examples/make writes it");
}

#[test]
fn answers_are_the_panel_programs() {
    let panel = std::env::var_os("PANEL").map_or(beside("../target/bin/panel"), Into::into);
    if !panel.exists() {
        return println!("missing: the panel program (tools/make panel); the answers of the examples are not compared");
    }
    for name in EXAMPLES {
        let sheet = std::fs::File::open(path(&format!("{name}.sheet"))).unwrap();
        let output = Command::new(&panel).stdin(sheet).output().unwrap();
        assert_eq!(String::from_utf8(output.stdout).unwrap(), read_to_string(path(&format!("{name}.answer"))).unwrap(), "{name}");
    }
}

/// Only bench four after its key has warnings, and they say what went wrong.
#[test]
fn warnings() {
    for name in EXAMPLES {
        let printed = output(&["check", &path(&format!("{name}.sheet"))]);
        assert_eq!(printed.lines().count(), if *name == "bench-four-after" { 3 } else { 1 }, "{printed}");
    }
}

/// What the pages show of `palgwern check` is what it says of these files.
#[test]
fn pages_show_what_is_said() {
    for (page, names) in [("README.md", ["after", "mistyped"]), ("docs/COMMAND.md", ["mistyped", "misspelt"])] {
        let files = names.map(|name| path(&format!("bench-four-{name}.sheet")));
        let folder = format!("{}/", beside("..").display());
        let printed = palgwern(&["check", &files[0], &files[1]], b"").output.replace(&folder, "");
        let shown = read_to_string(beside("..").join(page)).unwrap();
        assert!(shown.contains(&printed), "{page} has to show\n{printed}");
    }
}
