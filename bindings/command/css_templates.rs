//! Templates of CSS: track sizes, repeats and sets of line names.
use crate::css_rules::Wrong;
use crate::css_tokens::Token;
use crate::css_values::Value;
use crate::limits;
use crate::sheet::{Part, Times};

/// Words that CSS keeps back from names of lines.
const KEPT_BACK: &[&str] = &["auto", "span", "inherit", "initial", "unset", "revert", "revert-layer", "default"];

/// Whether CSS lets a line be named so.
pub fn may_name(name: &str) -> bool {
    !KEPT_BACK.iter().any(|word| word.eq_ignore_ascii_case(name))
}

impl Value<'_> {
    /// A template up to its end, or up to the bracket that closes its repeat.
    pub fn template(&mut self, inside: bool) -> Result<Vec<(usize, Part)>, Wrong> {
        let mut parts = vec![];
        while !(if inside { self.take(')') } else { self.ended() }) {
            match self.first() {
                Some(Token::Sign('[')) => parts.extend(self.name_set()?.into_iter().map(|name| (0, Part::Name(name)))),
                Some(Token::Call(word)) if !inside && word.eq_ignore_ascii_case("repeat") => parts.push((0, self.repeat()?)),
                _ => parts.push((0, Part::Track(self.track()?))),
            }
        }
        Ok(parts)
    }

    fn name_set(&mut self) -> Result<Vec<String>, Wrong> {
        self.next();
        let mut names = vec![];
        while !self.take(']') {
            names.push(self.name()?);
        }
        Ok(names)
    }

    /// A name of a line or an area.
    pub fn name(&mut self) -> Result<String, Wrong> {
        let Some(Token::Word(name)) = self.first() else { return Err(self.unexpected("a name or ']'")) };
        if !may_name(&name) {
            return Err(self.wrong(&format!("'{name}' is a word of CSS and no name")));
        }
        if name.is_empty() || name.len() > limits::NAME_BYTES || !name.bytes().all(|byte| (33..=126).contains(&byte)) {
            return Err(self.wrong(&format!("a sheet can't name a line '{name}': a name is 1 to {} signs of ASCII", limits::NAME_BYTES)));
        }
        self.next();
        Ok(name)
    }

    fn repeat(&mut self) -> Result<Part, Wrong> {
        self.next();
        let times = match self.first() {
            Some(Token::Word(word)) if word.eq_ignore_ascii_case("auto-fill") => Times::Fill,
            Some(Token::Word(word)) if word.eq_ignore_ascii_case("auto-fit") => Times::Fit,
            _ => Times::Count(0),
        };
        let times = match times {
            Times::Count(_) => Times::Count(u32::try_from(self.whole()?).map_err(|_| self.wrong("a repeat has no negative count"))?),
            automatic => {
                self.next();
                automatic
            }
        };
        self.expect(',')?;
        Ok(Part::Repeat(times, self.template(true)?))
    }
}
