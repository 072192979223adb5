//! Blocks of a batch or of a recorded list, read by counting bytes.
use crate::palgwern::Axis;
use std::io::BufRead;

/// An entry call: axis, line and name, whatever its bytes.
pub type Call = (Axis, u32, Vec<u8>);

/// A line without its line feed, `None` at the end of input.
fn line(input: &mut impl BufRead) -> Option<Vec<u8>> {
    let mut line = Vec::new();
    if input.read_until(b'\n', &mut line).unwrap() == 0 {
        return None;
    }
    assert_eq!(line.pop(), Some(b'\n'), "a line feed is missing");
    Some(line)
}

/// The word of a line and what follows it, `None` at the end of input.
pub fn head(input: &mut impl BufRead) -> Option<(String, String)> {
    let line = String::from_utf8(line(input)?).expect("a head is text");
    let (word, rest) = line.split_once(' ').expect("a head has two words");
    Some((word.to_string(), rest.to_string()))
}

/// The number of a head with this word, `None` at the end of input.
pub fn number(input: &mut impl BufRead, word: &str) -> Option<usize> {
    let (found, rest) = head(input)?;
    assert_eq!(found, word, "another head is due");
    Some(rest.parse().expect("a number"))
}

/// A part of what follows the word of a head.
pub fn part(rest: &str, at: usize) -> &str {
    rest.split(' ').nth(at).expect("a part of a head")
}

pub fn bytes(input: &mut impl BufRead, count: usize) -> Vec<u8> {
    let mut bytes = vec![0; count];
    input.read_exact(&mut bytes).unwrap();
    bytes
}

/// A line `axis TAB line TAB name`.
fn call(line: &[u8]) -> Call {
    let mut fields = line.splitn(3, |&byte| byte == b'\t');
    let axis = match fields.next() {
        Some(b"c") => Axis::Columns,
        Some(b"r") => Axis::Rows,
        _ => panic!("no such axis"),
    };
    let number = std::str::from_utf8(fields.next().unwrap()).unwrap().parse().unwrap();
    (axis, number, fields.next().unwrap().to_vec())
}

/// The calls of a head `enter COUNT`.
pub fn calls(input: &mut impl BufRead) -> Vec<Call> {
    let count = number(input, "enter").expect("the entries are due");
    (0..count).map(|_| call(&line(input).expect("an entry is due"))).collect()
}

/// The questions of a head `ask COUNT`, each a line.
pub fn questions(input: &mut impl BufRead) -> Vec<String> {
    let count = number(input, "ask").expect("the questions are due");
    (0..count).map(|_| String::from_utf8(line(input).expect("a question is due")).expect("a question is text")).collect()
}

/// The sheets of a recorded list with their calls.
pub fn recorded(mut input: impl BufRead) -> Vec<(Vec<u8>, Vec<Call>)> {
    let mut found = Vec::new();
    while head(&mut input).is_some() {
        let count = number(&mut input, "sheet").expect("a sheet is due");
        let sheet = bytes(&mut input, count);
        found.push((sheet, calls(&mut input)));
        let (_, expected) = head(&mut input).expect("an answer is due");
        bytes(&mut input, expected.parse().unwrap());
    }
    found
}
