//! CSS text as rules of declarations.
use crate::css_tokens::{spelt, tokens, Placed, Token};

/// What is wrong with CSS: a line and words.
pub type Wrong = (usize, String);

pub struct Declaration {
    pub line: usize,
    pub property: String,
    pub value: Vec<Placed>,
}

/// The rules of a text, each a list of declarations; without brackets the whole text is one rule.
pub fn rules(text: &str) -> Result<Vec<Vec<Declaration>>, Wrong> {
    let tokens = tokens(text)?;
    if !tokens.iter().any(|(_, token)| *token == Token::Sign('{')) {
        return Ok(vec![declarations(&tokens)?]);
    }
    let mut found = vec![];
    let mut rest = &tokens[..];
    while !rest.is_empty() {
        let (line, first) = &rest[0];
        if *first == Token::Sign('@') {
            return Err((*line, "rules that begin with @ are not read".to_string()));
        }
        let Some(open) = position(rest, '{') else { return Err((*line, "a rule without its block".to_string())) };
        let Some(close) = position(rest, '}').filter(|close| *close > open) else {
            return Err((*line, "the block is left open".to_string()));
        };
        if let Some(nested) = position(&rest[open + 1..close], '{') {
            return Err((rest[open + 1 + nested].0, "a block inside a block is not read".to_string()));
        }
        found.push(declarations(&rest[open + 1..close])?);
        rest = &rest[close + 1..];
    }
    Ok(found)
}

fn position(tokens: &[Placed], sign: char) -> Option<usize> {
    tokens.iter().position(|(_, token)| *token == Token::Sign(sign))
}

fn declarations(tokens: &[Placed]) -> Result<Vec<Declaration>, Wrong> {
    let parts = tokens.split(|(_, token)| *token == Token::Sign(';')).filter(|part| !part.is_empty());
    parts.map(declaration).collect()
}

fn declaration(part: &[Placed]) -> Result<Declaration, Wrong> {
    let line = part[0].0;
    match part {
        [(_, Token::Word(property)), (_, Token::Sign(':')), value @ ..] => {
            Ok(Declaration { line, property: lowered(property), value: value.to_vec() })
        }
        [(_, first), ..] => Err((line, format!("'{}' begins no declaration: a property, ':' and a value are expected", spelt(first)))),
        [] => unreachable!("empty parts are left out"),
    }
}

/// Properties are the same in capital letters, but for those of one's own.
fn lowered(property: &str) -> String {
    if property.starts_with("--") {
        property.to_string()
    } else {
        property.to_lowercase()
    }
}
