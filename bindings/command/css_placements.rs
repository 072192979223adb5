//! Placements of CSS: `grid-column` and `grid-row`.
use crate::css_rules::Wrong;
use crate::css_tokens::Token;
use crate::css_values::Value;
use crate::sheet::Written;

impl Value<'_> {
    /// The two ends of a placement; a name alone stands for both.
    pub fn placement(&mut self) -> Result<(Written, Written), Wrong> {
        let start = self.placement_end()?;
        if self.take('/') {
            let end = self.placement_end()?;
            self.end()?;
            return Ok((start, end));
        }
        self.end()?;
        let end = if matches!(start, Written::Named(_, 0)) { start.clone() } else { Written::Auto };
        Ok((start, end))
    }

    /// One end of a placement: auto, a line, a name, or a span, in any order of its words.
    fn placement_end(&mut self) -> Result<Written, Wrong> {
        let (mut span, mut number, mut name) = (false, None, None);
        while let Some(token) = self.first().filter(|token| *token != Token::Sign('/')) {
            match token {
                Token::Word(word) if word.eq_ignore_ascii_case("auto") && !span && number.is_none() && name.is_none() => {
                    self.next();
                    return Ok(Written::Auto);
                }
                Token::Word(word) if word.eq_ignore_ascii_case("span") && !span => {
                    self.next();
                    span = true;
                }
                Token::Word(_) if name.is_none() => name = Some(self.name()?),
                Token::Number(..) if number.is_none() => number = Some(self.whole()? as i32),
                _ => return Err(self.unexpected("'/' or the end")),
            }
        }
        let words = match (span, number) {
            (_, Some(0)) => Some("0 is no line and no span in CSS"),
            (true, Some(..=0)) => Some("a span has no negative number"),
            _ => None,
        };
        match (words, span, number, name) {
            (Some(words), ..) => Err(self.wrong(words)),
            (_, false, Some(line), None) => Ok(Written::Line(line)),
            (_, false, index, Some(name)) => Ok(Written::Named(name, index.unwrap_or(0))),
            (_, true, Some(by), None) => Ok(Written::Span(by as u32)),
            (_, true, by, Some(name)) => Ok(Written::NamedSpan(name, by.unwrap_or(1) as u32)),
            _ => Err(self.unexpected("a line, a name or a span")),
        }
    }
}
