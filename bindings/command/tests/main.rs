//! The command as people run it: words for mistakes, damaged sheets, pictures, CSS.
mod damaged;
mod examples;
mod mistakes;
mod pictures;
mod random;
#[path = "../refusals.rs"]
mod refusals;
mod round_trip;
mod usage;
mod xml;

use std::io::Write;
use std::path::PathBuf;
use std::process::{Command, Stdio};

/// What a run of the command gave.
pub struct Run {
    pub status: Option<i32>,
    pub output: String,
    pub errors: String,
}

/// Runs the command with words and standard input.
pub fn palgwern(words: &[&str], input: &[u8]) -> Run {
    let mut child = Command::new(env!("CARGO_BIN_EXE_palgwern"))
        .args(words)
        .stdin(Stdio::piped())
        .stdout(Stdio::piped())
        .stderr(Stdio::piped())
        .spawn()
        .unwrap();
    let _ = child.stdin.take().unwrap().write_all(input);
    let output = child.wait_with_output().unwrap();
    let text = |bytes: Vec<u8>| String::from_utf8(bytes).unwrap();
    Run { status: output.status.code(), output: text(output.stdout), errors: text(output.stderr) }
}

/// A folder for the files of a test.
pub fn folder(name: &str) -> PathBuf {
    let folder = PathBuf::from(env!("CARGO_TARGET_TMPDIR")).join(name);
    std::fs::create_dir_all(&folder).unwrap();
    folder
}

/// A path beside this crate.
pub fn beside(path: &str) -> PathBuf {
    PathBuf::from(env!("CARGO_MANIFEST_DIR")).join(path)
}
