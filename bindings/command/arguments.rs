//! The words of the command line.

/// What the command is asked to do.
pub enum Task {
    Check(Vec<String>),
    Show { files: Vec<String>, to: Option<String> },
    FromCss { file: String, to: Option<String> },
    ToCss { file: String, to: Option<String> },
    Help(&'static str),
    Version,
}

pub const HELP: &str = "palgwern: for people who write panels

  palgwern check FILE..               accepted or refused, in words, with warnings
  palgwern show FILE [-o FILE.svg]    a picture of the panel in SVG
  palgwern show BEFORE AFTER          two panels side by side, what differs marked
  palgwern from-css FILE [-o FILE]    the sheet of a CSS grid
  palgwern to-css FILE [-o FILE]      the CSS grid of a sheet

palgwern COMMAND --help says more. FILE may be - for standard input; without -o the output goes to standard output.
Exit status: 0 all right, 1 refused, 2 wrong usage, or a file that can't be read or written.
";

const CHECK: &str = "palgwern check FILE..

Says of each sheet whether it is accepted, or refused by which number and at which line, with the field and what is expected.
Number and line are the library's. Of an accepted sheet it warns, each warning with its line and a word:

  template   a template that counts as none, with CSS's reason
  name       a name that no line bears
  past       an end that lies off the grid
  held       a line more than 10,000 lines from the first, which was held
  order      ends that CSS swaps, or of which it drops one
  fit        a fit without items, which collapses as a whole
  area       an area that no placement uses
  item       an item past the last track
  zero       line 0

Exit status: 0 all accepted, warnings or not; 1 one was refused; 2 wrong usage, or a file that can't be read.
";

const SHOW: &str = "palgwern show FILE [-o FILE.svg]
palgwern show BEFORE AFTER [-o FILE.svg]

Draws a panel in SVG from the library's answers: lines with their numbers from both ends and their names, areas, tracks with
their sizes, coloured by where they come from, gutters, and placements with their line of the sheet. Definite sizes are to scale,
all others equal parts, drawn with a broken edge; what collapsed is hatched. What has no room for a label has it as a tooltip.
Two files are drawn side by side; what differs is marked and listed.

Exit status: 0 drawn; 1 a sheet was refused; 2 wrong usage, or a file that can't be read or written.
";

const FROM_CSS: &str = "palgwern from-css FILE [-o FILE.sheet]

Reads CSS rules: the one with the grid's properties is the panel, every other one an item.

  panel   grid-template-columns, grid-template-rows, grid-template-areas, gap, row-gap, column-gap, grid-auto-columns,
          grid-auto-rows; width, max-width or min-width, and height, max-height or min-height, in px, as inner sizes
  items   grid-column, grid-row
  beside  --extra-columns, --extra-rows: implicit tracks before and after the grid, such as 1 0; --item-columns, --item-rows:
          the tracks that hold an item, by their indexes from 0

What a sheet can't say is named and refused, with its line. Properties that are not the grid's are passed over.
Exit status: 0 written; 1 refused; 2 wrong usage, or a file that can't be read or written.
";

const TO_CSS: &str = "palgwern to-css FILE [-o FILE.css]

Writes a sheet as CSS that from-css reads back. What CSS can't say is named and refused, with its line: line 0, a span of 0,
areas that share a cell or whose names a picture of areas can't hold, CSS's own words as line names, and a minimum beside
fit-content.
Exit status: 0 written; 1 refused; 2 wrong usage, or a file that can't be read or written.
";

/// The files of a task and where its output goes.
fn split(words: &[String]) -> Result<(Vec<String>, Option<String>), String> {
    let (mut files, mut to) = (vec![], None);
    let mut words = words.iter();
    while let Some(word) = words.next() {
        if word == "-o" {
            to = Some(words.next().ok_or("-o needs a file")?.clone());
        } else if word.starts_with('-') && word != "-" {
            return Err(format!("there is no option {word}"));
        } else {
            files.push(word.clone());
        }
    }
    Ok((files, to))
}

/// The one file of a task.
fn one(files: Vec<String>) -> Result<String, String> {
    <[String; 1]>::try_from(files).map(|[file]| file).map_err(|files| format!("one file is needed, there are {}", files.len()))
}

/// The task that the words ask for.
pub fn read(words: &[String]) -> Result<Task, String> {
    let Some((command, rest)) = words.split_first() else { return Ok(Task::Help(HELP)) };
    let help = match command.as_str() {
        "-h" | "--help" | "help" => return Ok(Task::Help(HELP)),
        "--version" => return Ok(Task::Version),
        "check" => CHECK,
        "show" => SHOW,
        "from-css" => FROM_CSS,
        "to-css" => TO_CSS,
        _ => return Err(format!("there is no command {command}")),
    };
    if rest.iter().any(|word| word == "--help" || word == "-h") {
        return Ok(Task::Help(help));
    }
    let (files, to) = split(rest)?;
    match command.as_str() {
        "check" if to.is_some() => Err("check writes no file".to_string()),
        "check" if files.is_empty() => Err("check needs a file".to_string()),
        "check" => Ok(Task::Check(files)),
        "show" if !(1..=2).contains(&files.len()) => Err(format!("show needs one file or two, there are {}", files.len())),
        "show" => Ok(Task::Show { files, to }),
        "from-css" => Ok(Task::FromCss { file: one(files)?, to }),
        _ => Ok(Task::ToCss { file: one(files)?, to }),
    }
}
