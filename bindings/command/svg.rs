//! SVG as text: elements, attributes and escapes.

/// Attributes by name and value.
pub type Attributes<'a> = [(&'a str, String)];

/// Elements that are written one after the other.
#[derive(Default)]
pub struct Svg {
    text: String,
    open: Vec<&'static str>,
}

/// A text with the signs that XML keeps for itself escaped.
fn escaped(text: &str) -> String {
    let mut found = String::new();
    for sign in text.chars() {
        match sign {
            '&' => found += "&amp;",
            '<' => found += "&lt;",
            '>' => found += "&gt;",
            '"' => found += "&quot;",
            sign if sign < ' ' => found.push(' '),
            sign => found.push(sign),
        }
    }
    found
}

/// A coordinate in at most two digits after the point.
pub fn coordinate(value: f64) -> String {
    let text = format!("{value:.2}");
    let text = text.trim_end_matches('0').trim_end_matches('.');
    if text == "-0" {
        "0".to_string()
    } else {
        text.to_string()
    }
}

impl Svg {
    fn begin(&mut self, tag: &str, attributes: &Attributes) {
        self.text += &format!("<{tag}");
        for (name, value) in attributes.iter().filter(|(name, value)| *name != "class" || !value.is_empty()) {
            self.text += &format!(" {name}=\"{}\"", escaped(value));
        }
    }

    /// An element without content.
    pub fn element(&mut self, tag: &str, attributes: &Attributes) {
        self.begin(tag, attributes);
        self.text += "/>\n";
    }

    /// An element with text in it.
    pub fn words(&mut self, tag: &str, attributes: &Attributes, words: &str) {
        self.begin(tag, attributes);
        self.text += &format!(">{}</{tag}>\n", escaped(words));
    }

    pub fn open(&mut self, tag: &'static str, attributes: &Attributes) {
        self.begin(tag, attributes);
        self.text += ">\n";
        self.open.push(tag);
    }

    pub fn close(&mut self) {
        if let Some(tag) = self.open.pop() {
            self.text += &format!("</{tag}>\n");
        }
    }

    /// Text that is SVG already.
    pub fn raw(&mut self, text: &str) {
        self.text += text;
    }

    pub fn finished(mut self) -> String {
        while !self.open.is_empty() {
            self.close();
        }
        self.text
    }
}
