//! The values of grid properties, read token by token: numbers and sizes.
use crate::css_rules::{Declaration, Wrong};
use crate::css_tokens::{spelt, Placed, Token};
use crate::sheet::Track;
use crate::values;
use palgwern::Size;

/// A value that is read from its first token on.
pub struct Value<'a> {
    tokens: &'a [Placed],
    line: usize,
    property: &'a str,
}

impl<'a> Value<'a> {
    pub fn of(declaration: &'a Declaration) -> Value<'a> {
        Value { tokens: &declaration.value, line: declaration.line, property: &declaration.property }
    }

    pub fn wrong(&self, words: &str) -> Wrong {
        (self.tokens.first().map_or(self.line, |(line, _)| *line), format!("{}: {words}", self.property))
    }

    pub fn unexpected(&self, expected: &str) -> Wrong {
        let found = self.tokens.first().map_or("the end".to_string(), |(_, token)| format!("'{}'", spelt(token)));
        self.wrong(&format!("{found} stands where {expected} is expected"))
    }

    /// The token that is read next.
    pub fn first(&self) -> Option<Token> {
        self.tokens.first().map(|(_, token)| token.clone())
    }

    pub fn next(&mut self) -> Option<Token> {
        let ((_, token), rest) = self.tokens.split_first()?;
        self.tokens = rest;
        Some(token.clone())
    }

    pub fn take(&mut self, sign: char) -> bool {
        let there = matches!(self.tokens.first(), Some((_, Token::Sign(one))) if *one == sign);
        if there {
            self.next();
        }
        there
    }

    pub fn expect(&mut self, sign: char) -> Result<(), Wrong> {
        if self.take(sign) {
            Ok(())
        } else {
            Err(self.unexpected(&format!("'{sign}'")))
        }
    }

    /// Whether nothing is left.
    pub fn ended(&self) -> bool {
        self.tokens.is_empty()
    }

    /// The value is one word of CSS's own, such as `none`.
    pub fn is_word(&self, word: &str) -> bool {
        matches!(self.tokens, [(_, Token::Word(one))] if one.eq_ignore_ascii_case(word))
    }

    /// Nothing may be left.
    pub fn end(&self) -> Result<(), Wrong> {
        if self.ended() {
            Ok(())
        } else {
            Err(self.unexpected("nothing more"))
        }
    }

    pub fn text(&mut self) -> Result<String, Wrong> {
        match self.tokens.first() {
            Some((_, Token::Text(text))) => {
                let text = text.clone();
                self.next();
                Ok(text)
            }
            _ => Err(self.unexpected("a row of cells between quotes")),
        }
    }

    /// A whole number.
    pub fn whole(&mut self) -> Result<i64, Wrong> {
        match self.tokens.first() {
            Some((_, Token::Number(digits, unit))) if unit.is_empty() && !digits.contains(['.', 'e', 'E']) => {
                let number = digits.parse::<i32>().map_err(|_| self.wrong(&format!("{digits} is too large for a sheet")))?;
                self.next();
                Ok(number.into())
            }
            _ => Err(self.unexpected("a whole number")),
        }
    }

    /// A length in pixels or a percentage.
    pub fn fixed(&mut self) -> Result<Size, Wrong> {
        match self.size()? {
            size @ (Size::Length(_) | Size::Percent(_)) => Ok(size),
            other => Err(self.wrong(&format!("{} is no length and no percentage", values::css_size(other)))),
        }
    }

    /// A size that is no function.
    fn size(&mut self) -> Result<Size, Wrong> {
        let size = match self.tokens.first() {
            Some((_, Token::Number(digits, unit))) => self.number(digits, unit)?,
            Some((_, Token::Word(word))) => match word.to_lowercase().as_str() {
                "auto" => Size::Auto,
                "min-content" => Size::MinContent,
                "max-content" => Size::MaxContent,
                word => return Err(self.wrong(&format!("a sheet can't say '{word}' as a size"))),
            },
            Some((_, Token::Call(word))) => return Err(self.wrong(&format!("a sheet can't say {word}(..) here"))),
            _ => return Err(self.unexpected("a size")),
        };
        self.next();
        Ok(size)
    }

    fn number(&self, digits: &str, unit: &str) -> Result<Size, Wrong> {
        let plain = |value: f32| if value == 0.0 { 0.0 } else { value };
        let value = plain(digits.parse().unwrap_or(f32::NAN));
        match unit.to_lowercase().as_str() {
            "px" => Ok(Size::Length(value)),
            "" if value == 0.0 => Ok(Size::Length(0.0)),
            "%" => Ok(Size::Percent(plain(values::fraction(digits).unwrap_or(f32::NAN)))),
            "fr" => Ok(Size::Fraction(value)),
            "" => Err(self.wrong(&format!("{digits} has no unit; px, % and fr are what a sheet can say"))),
            _ => Err(self.wrong(&format!("a sheet can't say {digits}{unit}; px, % and fr are its units"))),
        }
    }

    /// A track size.
    pub fn track(&mut self) -> Result<Track, Wrong> {
        let Some((_, Token::Call(word))) = self.tokens.first() else {
            let maximum = self.size()?;
            let minimum = if matches!(maximum, Size::Fraction(_)) { Size::Auto } else { maximum };
            return Ok(Track { minimum, maximum });
        };
        match word.to_lowercase().as_str() {
            "minmax" => self.minmax(),
            "fit-content" => self.fit_content(),
            word => Err(self.wrong(&format!("a sheet can't say {word}(..) as a track size"))),
        }
    }

    fn minmax(&mut self) -> Result<Track, Wrong> {
        self.next();
        let minimum = self.size()?;
        if matches!(minimum, Size::Fraction(_)) {
            return Err(self.wrong("fr is no minimum in CSS"));
        }
        self.expect(',')?;
        let maximum = self.size()?;
        self.expect(')')?;
        Ok(Track { minimum, maximum })
    }

    fn fit_content(&mut self) -> Result<Track, Wrong> {
        self.next();
        let maximum = match self.fixed()? {
            Size::Percent(value) => Size::FitContentPercent(value),
            Size::Length(value) => Size::FitContentLength(value),
            other => other,
        };
        self.expect(')')?;
        Ok(Track { minimum: Size::Auto, maximum })
    }

    /// A list of track sizes.
    pub fn tracks(&mut self) -> Result<Vec<Track>, Wrong> {
        let mut found = vec![];
        while !self.ended() {
            found.push(self.track()?);
        }
        Ok(found)
    }
}
