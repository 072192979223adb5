//! The tokens of CSS that grid properties are made of.

#[derive(Clone, PartialEq, Debug)]
pub enum Token {
    Word(String),
    /// A number as it is spelt, and its unit: empty, `%`, `px` and so on.
    Number(String, String),
    Text(String),
    /// A word with its opening bracket, such as `repeat(`.
    Call(String),
    Sign(char),
}

/// A token with the line that it begins at.
pub type Placed = (usize, Token);

struct Scanner<'a> {
    text: &'a [char],
    at: usize,
    line: usize,
}

/// The tokens of a text; an error is a line and words.
pub fn tokens(text: &str) -> Result<Vec<Placed>, (usize, String)> {
    let text: Vec<char> = text.chars().collect();
    let mut scanner = Scanner { text: &text, at: 0, line: 1 };
    let mut found = vec![];
    while scanner.pass_over()? {
        let line = scanner.line;
        found.push((line, scanner.token()?));
    }
    Ok(found)
}

fn begins_word(sign: char) -> bool {
    sign.is_alphabetic() || sign == '_' || sign == '\\' || !sign.is_ascii()
}

fn goes_on(sign: char) -> bool {
    begins_word(sign) || sign.is_ascii_digit() || sign == '-'
}

impl Scanner<'_> {
    fn ahead(&self, by: usize) -> char {
        self.text.get(self.at + by).copied().unwrap_or('\0')
    }

    fn next(&mut self) -> char {
        let sign = self.ahead(0);
        self.line += usize::from(sign == '\n');
        self.at += 1;
        sign
    }

    /// Passes over spaces and comments; whether something is left.
    fn pass_over(&mut self) -> Result<bool, (usize, String)> {
        while self.at < self.text.len() {
            if self.ahead(0).is_whitespace() {
                self.next();
            } else if self.ahead(0) == '/' && self.ahead(1) == '*' {
                let line = self.line;
                while !(self.ahead(0) == '*' && self.ahead(1) == '/') {
                    if self.at >= self.text.len() {
                        return Err((line, "the comment is left open".to_string()));
                    }
                    self.next();
                }
                self.at += 2;
            } else {
                return Ok(true);
            }
        }
        Ok(false)
    }

    fn token(&mut self) -> Result<Token, (usize, String)> {
        let (sign, second) = (self.ahead(0), self.ahead(1));
        let digits = |sign: char, second: char| sign.is_ascii_digit() || sign == '.' && second.is_ascii_digit();
        if digits(sign, second) || matches!(sign, '+' | '-') && digits(second, self.ahead(2)) {
            return Ok(self.number());
        }
        if begins_word(sign) || sign == '-' && (begins_word(second) || second == '-') {
            let word = self.word();
            if self.ahead(0) == '(' {
                self.next();
                return Ok(Token::Call(word));
            }
            return Ok(Token::Word(word));
        }
        if sign == '"' || sign == '\'' {
            return self.quoted();
        }
        Ok(Token::Sign(self.next()))
    }

    fn number(&mut self) -> Token {
        let start = self.at;
        self.next();
        while self.ahead(0).is_ascii_digit() || self.ahead(0) == '.' && self.ahead(1).is_ascii_digit() {
            self.next();
        }
        let (second, third) = (self.ahead(1), self.ahead(2));
        if matches!(self.ahead(0), 'e' | 'E') && (second.is_ascii_digit() || matches!(second, '+' | '-') && third.is_ascii_digit()) {
            self.at += 2;
            while self.ahead(0).is_ascii_digit() {
                self.next();
            }
        }
        let digits: String = self.text[start..self.at].iter().collect();
        let unit = match self.ahead(0) {
            '%' => self.next().to_string(),
            sign if begins_word(sign) => self.word(),
            _ => String::new(),
        };
        Token::Number(digits, unit)
    }

    fn word(&mut self) -> String {
        let mut word = String::new();
        while goes_on(self.ahead(0)) && self.at < self.text.len() {
            let sign = self.next();
            word.push(if sign == '\\' { self.escaped() } else { sign });
        }
        word
    }

    /// The letter after a backslash: itself, or by its code and a space after that.
    fn escaped(&mut self) -> char {
        let mut code = 0;
        let mut digits = 0;
        while let Some(digit) = self.ahead(0).to_digit(16).filter(|_| digits < 6) {
            (code, digits) = (code * 16 + digit, digits + 1);
            self.next();
        }
        if digits == 0 {
            return self.next();
        }
        if self.ahead(0).is_whitespace() {
            self.next();
        }
        char::from_u32(code).unwrap_or('\u{fffd}')
    }

    fn quoted(&mut self) -> Result<Token, (usize, String)> {
        let (line, quote) = (self.line, self.next());
        let mut text = String::new();
        loop {
            match self.ahead(0) {
                sign if self.at >= self.text.len() || sign == '\n' => {
                    return Err((line, "the text between quotes is left open".to_string()))
                }
                sign if sign == quote => break,
                '\\' => {
                    self.next();
                    text.push(self.escaped());
                }
                _ => text.push(self.next()),
            }
        }
        self.next();
        Ok(Token::Text(text))
    }
}

/// A name as a word of CSS, with escapes where its signs need them.
pub fn identifier(name: &str) -> String {
    let mut text = String::new();
    for (at, sign) in name.chars().enumerate() {
        let early = at == 0 || at == 1 && name.starts_with('-');
        if sign.is_ascii_digit() && early {
            text += &format!("\\{:x} ", sign as u32);
        } else if sign.is_ascii_alphanumeric() || sign == '_' || sign == '-' && name != "-" {
            text.push(sign);
        } else {
            text += &format!("\\{sign}");
        }
    }
    text
}

/// A token as it is written, for messages.
pub fn spelt(token: &Token) -> String {
    match token {
        Token::Word(word) => word.clone(),
        Token::Number(digits, unit) => format!("{digits}{unit}"),
        Token::Text(text) => format!("\"{text}\""),
        Token::Call(word) => format!("{word}("),
        Token::Sign(sign) => sign.to_string(),
    }
}
