//! A small reader of XML, as strict as the pictures need: every element closed, every attribute quoted, no stray sign.
use std::collections::BTreeMap;

/// An element with its attributes, elements and text.
#[derive(Debug, Default)]
pub struct Element {
    pub tag: String,
    pub attributes: BTreeMap<String, String>,
    pub children: Vec<Element>,
    pub text: String,
}

impl Element {
    pub fn get(&self, name: &str) -> &str {
        self.attributes.get(name).map_or("", |value| value)
    }

    pub fn has_class(&self, word: &str) -> bool {
        self.get("class").split(' ').any(|one| one == word)
    }

    /// This element and all in it.
    pub fn all(&self) -> Vec<&Element> {
        let mut found = vec![self];
        found.extend(self.children.iter().flat_map(Element::all));
        found
    }
}

struct Reader<'a> {
    rest: &'a str,
}

/// The one element of a text.
pub fn read(text: &str) -> Result<Element, String> {
    let mut reader = Reader { rest: text.trim() };
    let element = reader.element()?;
    if reader.rest.trim().is_empty() {
        Ok(element)
    } else {
        Err(format!("more after the end: {:.40}", reader.rest))
    }
}

fn unescaped(text: &str) -> Result<String, String> {
    let mut found = String::new();
    let mut rest = text;
    while let Some(at) = rest.find('&') {
        found += &rest[..at];
        let end = rest[at..].find(';').ok_or("an & without its ;")? + at;
        found.push(match &rest[at + 1..end] {
            "amp" => '&',
            "lt" => '<',
            "gt" => '>',
            "quot" => '"',
            other => return Err(format!("no such sign: {other}")),
        });
        rest = &rest[end + 1..];
    }
    Ok(found + rest)
}

impl Reader<'_> {
    fn take(&mut self, text: &str) -> Result<(), String> {
        self.rest = self.rest.strip_prefix(text).ok_or_else(|| format!("{text} is expected: {:.60}", self.rest))?;
        Ok(())
    }

    fn word(&mut self) -> Result<String, String> {
        let end = self.rest.find(|sign: char| !(sign.is_alphanumeric() || "-:_".contains(sign))).unwrap_or(self.rest.len());
        let (word, rest) = self.rest.split_at(end);
        self.rest = rest;
        if word.is_empty() {
            Err(format!("a name is expected: {:.60}", rest))
        } else {
            Ok(word.to_string())
        }
    }

    fn element(&mut self) -> Result<Element, String> {
        self.take("<")?;
        let mut element = Element { tag: self.word()?, ..Element::default() };
        while self.rest.starts_with(' ') {
            self.take(" ")?;
            let name = self.word()?;
            self.take("=\"")?;
            let end = self.rest.find('"').ok_or("an attribute left open")?;
            if self.rest[..end].contains('<') {
                return Err("a < in an attribute".to_string());
            }
            let value = unescaped(&self.rest[..end])?;
            self.rest = &self.rest[end + 1..];
            if element.attributes.insert(name.clone(), value).is_some() {
                return Err(format!("{name} twice"));
            }
        }
        if self.rest.starts_with("/>") {
            self.take("/>")?;
            return Ok(element);
        }
        self.take(">")?;
        self.content(&mut element)?;
        Ok(element)
    }

    fn content(&mut self, element: &mut Element) -> Result<(), String> {
        loop {
            let at = self.rest.find('<').ok_or_else(|| format!("{} is left open", element.tag))?;
            element.text += &unescaped(&self.rest[..at])?;
            self.rest = &self.rest[at..];
            if self.rest.starts_with("</") {
                self.take(&format!("</{}>", element.tag))?;
                return Ok(());
            }
            element.children.push(self.element()?);
        }
    }
}
