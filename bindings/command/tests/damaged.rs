//! Damaged sheets: the command ends by its exit status alone, and number and line are those of the panel program.
use crate::random::{Maker, Random};
use crate::{beside, folder, palgwern};
use palgwern::Panel;
use std::fs::File;
use std::path::{Path, PathBuf};
use std::process::{Command, Stdio};

const SHEETS: usize = 10_000;
const AT_ONCE: usize = 200;
/// Fields that are wrong somewhere.
const BAD: &[&[u8]] = &[
    b"",
    b"-",
    b"0",
    b"1",
    b"-1",
    b"01",
    b"+1",
    b"1.0",
    b"65536",
    b"10002",
    b"99999999999999999999",
    b"x",
    b"c",
    b"C",
    b"fill",
    b"Fit",
    b"auto",
    b"len",
    b"px",
    b"fr",
    b"fitl",
    b"named",
    b"nspan",
    b"span",
    b"80000000",
    b"7fc00000",
    b"bf800000",
    b"477fff01",
    b"3F800000",
    b"80",
    b"50%",
    b"abcdefghijklmnopqrstuvwxyz0123456",
    b"a b",
    b"a\r",
    b"\x80\xff",
    b"\0",
    b"00000001",
    b"41200001",
];
const LINES: &[&[u8]] = &[
    b"",
    b"end\tc",
    b"end\tr",
    b"repeat\tc\t2",
    b"repeat\tr\tfill",
    b"axis\tc\t-\tmax\tlen\t00000000",
    b"area\tlate\t1\t2\t1\t2",
    b"Name\tc\tx",
    b"name c x",
    b"\t\t",
    b"size\tc\t0\t0",
];

/// A sheet with one damage or two.
fn damaged(random: &mut Random, seed: u64) -> Vec<u8> {
    let mut lines: Vec<Vec<u8>> = Maker::new(seed, false).lines().into_iter().map(String::into_bytes).collect();
    lines.push(b"item\tc\t0".to_vec());
    for _ in 0..1 + random.below(2) {
        let at = random.below(lines.len());
        match random.below(12) {
            0..=4 => lines[at] = with_field(random, &lines[at]),
            5 => lines[at] = with_byte(random, &lines[at]),
            6 => lines.insert(at, random.pick(LINES).to_vec()),
            7 => {
                let line = lines[at].clone();
                lines.push(line);
            }
            8 => {
                let other = random.below(lines.len());
                lines.swap(at, other);
            }
            9 => {
                let line = lines[at].clone();
                lines.extend(std::iter::repeat_n(line, 70));
            }
            10 => {
                lines.remove(at);
                lines.push(b"item\tr\t1".to_vec());
            }
            _ => lines[at].push(b'\t'),
        }
    }
    let mut sheet: Vec<u8> = lines.iter().flat_map(|line| [&line[..], b"\n"].concat()).collect();
    match random.below(60) {
        0 => {
            sheet.pop();
        }
        1 => sheet.resize(32_767 + random.below(3), b'\n'),
        2 => sheet.extend(b"repeat\tc\t65535\nname\tc\tx\ntrack\tc\tlen\t42c80000\tlen\t42c80000\nend\tc\n"),
        _ => {}
    }
    sheet
}

fn with_field(random: &mut Random, line: &[u8]) -> Vec<u8> {
    let mut fields: Vec<&[u8]> = line.split(|&byte| byte == b'\t').collect();
    let at = random.below(fields.len());
    fields[at] = *random.pick(BAD);
    fields.join(&b'\t')
}

fn with_byte(random: &mut Random, line: &[u8]) -> Vec<u8> {
    let mut line = line.to_vec();
    let byte = random.below(256) as u8;
    if line.is_empty() {
        return vec![byte];
    }
    let at = random.below(line.len());
    match random.below(3) {
        0 => line[at] = byte,
        1 => line.insert(at, byte),
        _ => {
            line.remove(at);
        }
    }
    line
}

/// The panel program, where it is built.
fn panel_program() -> Option<PathBuf> {
    let path = std::env::var_os("PANEL").map_or(beside("../target/bin/panel"), PathBuf::from);
    path.exists().then_some(path)
}

/// Number and line of a refusal, zeros where there is none: of the panel program, or of the library where that is missing.
fn refusal(panel: &Option<PathBuf>, file: &Path) -> (u32, u32) {
    let Some(panel) = panel else {
        let sheet = std::fs::read(file).unwrap();
        return Panel::read(&sheet).err().map_or((0, 0), |refusal| (refusal.number(), refusal.line));
    };
    let output = Command::new(panel).stdin(File::open(file).unwrap()).stderr(Stdio::null()).output().unwrap();
    let text = String::from_utf8(output.stdout).unwrap();
    match text.strip_prefix("refused\t").map(|rest| rest.trim_end().split('\t').map(|field| field.parse().unwrap()).collect::<Vec<u32>>()) {
        Some(numbers) => (numbers[0], numbers[1]),
        None => (0, 0),
    }
}

/// Number and line that the first printed line of a sheet says, and whether it says more than the number's meaning.
fn said(line: &str) -> (u32, u32, bool) {
    if line.starts_with("accepted: ") {
        return (0, 0, true);
    }
    let (at, rest) = line.split_once("refused by ").unwrap_or_else(|| panic!("{line}"));
    let line_number = at.strip_prefix("line ").map_or(0, |text| text.trim_end_matches(": ").parse().unwrap());
    let meaning = rest.contains("or the line has no form of a sheet")
        || rest.ends_with("(crowded): one more would pass a limit")
        || rest.ends_with("is outside its range");
    (rest[..rest.find(' ').unwrap()].parse().unwrap(), line_number, !meaning)
}

/// Half of the sheets, in a folder of their own: number and line of each.
fn compare(half: usize) {
    let (folder, panel, mut random) = (folder(&format!("damaged-{half}")), panel_program(), Random::new(half as u64));
    if panel.is_none() {
        println!("missing: the panel program (tools/make panel); the library is asked in its place");
    }
    let (mut refused, mut unexplained) = (0, vec![]);
    for batch in 0..SHEETS / 2 / AT_ONCE {
        let files: Vec<PathBuf> = (0..AT_ONCE).map(|at| folder.join(format!("{at}.sheet"))).collect();
        for (at, file) in files.iter().enumerate() {
            std::fs::write(file, damaged(&mut random, (half * SHEETS + batch * AT_ONCE + at) as u64)).unwrap();
        }
        let names: Vec<String> = files.iter().map(|file| file.display().to_string()).collect();
        let words: Vec<&str> = std::iter::once("check").chain(names.iter().map(String::as_str)).collect();
        let run = palgwern(&words, b"");
        assert_eq!((run.status, run.errors.as_str()), (Some(1), ""));
        for (file, name) in files.iter().zip(&names) {
            let first = run.output.lines().find_map(|line| line.strip_prefix(&format!("{name}: "))).unwrap();
            let (number, line, explained) = said(first);
            let sheet = || String::from_utf8_lossy(&std::fs::read(file).unwrap()).into_owned();
            assert_eq!((number, line), refusal(&panel, file), "{first}\n{}", sheet());
            refused += usize::from(number != 0);
            if !explained {
                unexplained.push(format!("{first}\n{}", sheet()));
            }
        }
    }
    println!("{} damaged sheets, {refused} of them refused, {} by the number's meaning alone", SHEETS / 2, unexplained.len());
    assert!(refused > SHEETS / 4);
    assert!(unexplained.is_empty(), "{}", unexplained[0]);
}

#[test]
fn number_and_line_are_the_panel_programs() {
    compare(1);
}

#[test]
fn number_and_line_are_the_panel_programs_too() {
    compare(2);
}

#[test]
fn one_at_a_time() {
    let mut random = Random::new(2);
    for seed in 0..100 {
        let sheet = damaged(&mut random, seed);
        for command in ["check", "show", "to-css", "from-css"] {
            let run = palgwern(&[command, "-"], &sheet);
            let expected = if Panel::read(&sheet).is_ok() { 0 } else { 1 };
            let ended = matches!(run.status, Some(0 | 1)) && (command == "from-css" || command == "to-css" || run.status == Some(expected));
            assert!(ended, "{command} {:?} {}\n{}", run.status, run.errors, String::from_utf8_lossy(&sheet));
        }
    }
}
