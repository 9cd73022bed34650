//! Markup that is well-formed by construction: each element is closed by the name it was opened with, and texts are escaped.

#[derive(Default)]
pub struct Markup {
    text: String,
    open: Vec<String>,
}

impl Markup {
    pub fn with_start(start: &str) -> Markup {
        Markup {
            text: start.to_string(),
            open: Vec::new(),
        }
    }

    /// Opens an element; the tag is its name and attributes.
    pub fn open(&mut self, tag: &str) -> &mut Markup {
        let name = tag.split(' ').next().unwrap_or(tag);
        self.open.push(name.to_string());
        self.text.push('<');
        self.text.push_str(tag);
        self.text.push('>');
        self
    }

    /// Closes the element opened last.
    pub fn close(&mut self) -> &mut Markup {
        if let Some(name) = self.open.pop() {
            self.text.push_str("</");
            self.text.push_str(&name);
            self.text.push('>');
        }
        self
    }

    /// An element with a text in it.
    pub fn element(&mut self, tag: &str, text: &str) -> &mut Markup {
        self.open(tag).words(text).close()
    }

    /// An element that never has content.
    pub fn empty(&mut self, tag: &str) -> &mut Markup {
        self.text.push('<');
        self.text.push_str(tag);
        self.text.push_str("/>");
        self
    }

    pub fn words(&mut self, text: &str) -> &mut Markup {
        self.text.push_str(&escaped(text));
        self
    }

    /// A style sheet, whose content isn't escaped.
    pub fn style(&mut self, sheet: &str) -> &mut Markup {
        self.open("style");
        self.text.push_str(sheet);
        self.close()
    }

    pub fn row_end(&mut self) -> &mut Markup {
        self.text.push('\n');
        self
    }

    pub fn finish(mut self) -> String {
        while !self.open.is_empty() {
            self.close();
        }
        self.text.push('\n');
        self.text
    }
}

pub fn escaped(text: &str) -> String {
    let text = text.replace('&', "&amp;");
    let text = text.replace('<', "&lt;").replace('>', "&gt;");
    text.replace('"', "&quot;")
}

/// A place on a drawing, to a tenth.
pub fn at(value: f64) -> String {
    let text = format!("{value:.1}");
    let short = text.strip_suffix(".0").unwrap_or(&text);
    match short {
        "-0" => "0".to_string(),
        short => short.to_string(),
    }
}
