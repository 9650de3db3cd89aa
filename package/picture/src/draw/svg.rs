//! The elements of an SVG, as text. Lengths are whole; a look is the attributes of an element.

use std::fmt::Write;

#[derive(Clone, Copy, Debug, PartialEq)]
pub struct Rect {
    pub x: i64,
    pub y: i64,
    pub width: i64,
    pub height: i64,
}

impl Rect {
    pub fn right(&self) -> i64 {
        self.x + self.width
    }
}

#[derive(Default)]
pub struct Svg {
    body: String,
}

impl Svg {
    fn put(&mut self, element: std::fmt::Arguments) {
        // Writing to a string can't fail.
        let _ = self.body.write_fmt(element);
        self.body.push('\n');
    }

    pub fn rect(&mut self, at: Rect, look: &str) {
        let Rect { x, y, width, height } = at;
        self.put(format_args!(r#"<rect x="{x}" y="{y}" width="{width}" height="{height}" {look}/>"#));
    }

    pub fn line(&mut self, from: (i64, i64), to: (i64, i64), look: &str) {
        let ((x1, y1), (x2, y2)) = (from, to);
        self.put(format_args!(r#"<line x1="{x1}" y1="{y1}" x2="{x2}" y2="{y2}" {look}/>"#));
    }

    pub fn path(&mut self, points: &str, look: &str) {
        self.put(format_args!(r#"<path d="{points}" {look}/>"#));
    }

    pub fn text(&mut self, x: i64, y: i64, look: &str, content: &str) {
        let content = escaped(content);
        self.put(format_args!(r#"<text x="{x}" y="{y}" {look}>{content}</text>"#));
    }

    /// Begins a group that a viewer names so when it is pointed at.
    pub fn open(&mut self, name: &str) {
        self.put(format_args!("<g><title>{}</title>", escaped(name)));
    }

    pub fn close(&mut self) {
        self.put(format_args!("</g>"));
    }

    /// The whole picture, of this size and style, on a plain background.
    pub fn finish(self, size: (i64, i64), title: &str, style: &str, background: &str) -> String {
        let ((width, height), title) = (size, escaped(title));
        format!(
            r#"<?xml version="1.0" encoding="UTF-8"?>
<svg xmlns="http://www.w3.org/2000/svg" width="{width}" height="{height}" viewBox="0 0 {width} {height}" role="img">
<title>{title}</title>
<style>{style}</style>
<rect width="{width}" height="{height}" fill="{background}"/>
{}</svg>
"#,
            self.body
        )
    }
}

/// Text for XML; a character that XML can't have becomes the one for unknown characters.
pub fn escaped(text: &str) -> String {
    let mut out = String::new();
    for letter in text.chars() {
        match letter {
            '&' => out += "&amp;",
            '<' => out += "&lt;",
            '>' => out += "&gt;",
            '"' => out += "&quot;",
            '\'' => out += "&#39;",
            '\t' | '\n' | '\r' => out.push(' '),
            '\0'..='\x1f' | '\u{fffe}' | '\u{ffff}' => out.push('\u{fffd}'),
            _ => out.push(letter),
        }
    }
    out
}

#[cfg(test)]
mod tests {
    use super::*;

    #[test]
    fn text_is_escaped() {
        assert_eq!(escaped("a<b>&\"c'\u{1}\né…"), "a&lt;b&gt;&amp;&quot;c&#39;\u{fffd} é…");
    }
}
