//! The command `palgwern`, for people who write panels; docs/COMMAND.md is its page.
mod answer;
mod areas;
mod arguments;
mod bars;
mod before;
mod check;
mod css_areas;
mod css_placements;
mod css_read;
mod css_rules;
mod css_templates;
mod css_tokens;
mod css_values;
mod css_write;
mod facts;
mod faults;
mod fields;
mod forms;
mod geometry;
mod labels;
mod limits;
mod lines;
mod picture;
mod refusals;
mod sheet;
mod sheet_read;
mod sheet_write;
mod show;
mod style;
mod svg;
mod template;
mod text;
mod tracks;
mod values;
mod warnings;

use answer::Answer;
use arguments::Task;
use sheet::Sheet;
use std::io::{Read, Write};
use std::process::ExitCode;

/// How a task ends where it does not succeed: refused, or not done at all.
pub enum Failure {
    Refused(String),
    NotDone(String),
}

fn main() -> ExitCode {
    let words: Vec<String> = std::env::args_os().skip(1).map(|word| word.to_string_lossy().into_owned()).collect();
    match arguments::read(&words).map(run) {
        Ok(Ok(())) => ExitCode::SUCCESS,
        Ok(Err(Failure::Refused(words))) => ended(1, &words),
        Ok(Err(Failure::NotDone(words))) => ended(2, &format!("palgwern: {words}")),
        Err(words) => ended(2, &format!("palgwern: {words}\n{}", arguments::HELP)),
    }
}

/// Says why on standard error; empty words were said already.
fn ended(status: u8, words: &str) -> ExitCode {
    if !words.is_empty() {
        let _ = writeln!(std::io::stderr(), "{words}");
    }
    ExitCode::from(status)
}

fn run(task: Task) -> Result<(), Failure> {
    match task {
        Task::Help(text) => write(None, text),
        Task::Version => write(None, concat!("palgwern ", env!("CARGO_PKG_VERSION"), "\n")),
        Task::Check(files) => check(&files),
        Task::Show { files, to } => show(&files, to.as_deref()),
        Task::FromCss { file, to } => {
            let text = String::from_utf8(input(&file)?).map_err(|_| Failure::Refused(format!("{file}: the text is no UTF-8")))?;
            write(to.as_deref(), &css_read::read(&text).map_err(|wrong| refused(&file, wrong))?)
        }
        Task::ToCss { file, to } => {
            let bytes = input(&file)?;
            Answer::read(&bytes).map_err(|refusal| Failure::Refused(format!("{file}: {}", faults::words(&bytes, refusal))))?;
            write(to.as_deref(), &css_write::write(&Sheet::read(&bytes)).map_err(|wrong| refused(&file, wrong))?)
        }
    }
}

fn show(files: &[String], to: Option<&str>) -> Result<(), Failure> {
    let mut panels = vec![];
    for file in files {
        let bytes = input(file)?;
        let words = |refusal| format!("{file}: {}", faults::words(&bytes, refusal));
        let (answer, overlap) = Answer::display(&bytes).map_err(|refusal| Failure::Refused(words(refusal)))?;
        if let Some(refusal) = overlap {
            let _ = writeln!(std::io::stderr(), "{}; drawn for display", words(refusal));
        }
        let name = std::path::Path::new(file).file_name().map_or(file.clone(), |name| name.to_string_lossy().into_owned());
        panels.push((name, answer));
    }
    write(to, &show::picture(&panels))
}

/// What can't be said, with its file and line.
fn refused(file: &str, (line, words): css_rules::Wrong) -> Failure {
    let at = if line == 0 { String::new() } else { format!("line {line}: ") };
    Failure::Refused(format!("{file}: {at}{words}"))
}

/// The bytes of a file that has to be read.
fn input(file: &str) -> Result<Vec<u8>, Failure> {
    read(file).map_err(Failure::NotDone)
}

fn check(files: &[String]) -> Result<(), Failure> {
    let (mut refused, mut unread) = (false, false);
    for file in files {
        let (lines, accepted) = match read(file) {
            Ok(sheet) => check::report(&sheet),
            Err(words) => {
                unread = true;
                ended(2, &format!("palgwern: {words}"));
                continue;
            }
        };
        refused |= !accepted;
        write(None, &lines.iter().map(|line| format!("{file}: {line}\n")).collect::<String>())?;
    }
    match (unread, refused) {
        (true, _) => Err(Failure::NotDone("a file was not read".to_string())),
        (false, true) => Err(Failure::Refused(String::new())),
        _ => Ok(()),
    }
}

/// The bytes of a file, or of standard input.
fn read(file: &str) -> Result<Vec<u8>, String> {
    let mut bytes = vec![];
    let found = if file == "-" { std::io::stdin().read_to_end(&mut bytes).map(|_| bytes) } else { std::fs::read(file) };
    found.map_err(|reason| format!("{file}: {reason}"))
}

/// Writes a file, or to standard output.
fn write(to: Option<&str>, text: &str) -> Result<(), Failure> {
    let done = match to {
        Some(file) if file != "-" => std::fs::write(file, text),
        _ => std::io::stdout().write_all(text.as_bytes()),
    };
    done.map_err(|reason| Failure::NotDone(format!("{}: {reason}", to.unwrap_or("standard output"))))
}
