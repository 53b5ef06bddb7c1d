//! SVG elements as text.

use std::fmt::Display;

/// Text for XML: what would be taken for markup, or is no XML character, is replaced.
pub fn escape(text: &str) -> String {
    let mut escaped = String::with_capacity(text.len());
    for letter in text.chars() {
        match letter {
            '&' => escaped.push_str("&amp;"),
            '<' => escaped.push_str("&lt;"),
            '>' => escaped.push_str("&gt;"),
            '"' => escaped.push_str("&quot;"),
            '\n' | '\t' => escaped.push(letter),
            letter if letter.is_control() => escaped.push('\u{fffd}'),
            letter => escaped.push(letter),
        }
    }
    escaped
}

/// A number with one decimal.
pub fn n(number: f64) -> String {
    format!("{number:.1}")
}

/// Attributes behind an element's name.
pub fn attributes(pairs: &[(&str, &dyn Display)]) -> String {
    pairs.iter().map(|(name, value)| format!(" {name}=\"{}\"", escape(&value.to_string()))).collect()
}

pub fn rect(x: f64, y: f64, width: f64, height: f64, more: &str) -> String {
    format!("<rect x=\"{}\" y=\"{}\" width=\"{}\" height=\"{}\" {more}/>", n(x), n(y), n(width.max(0.0)), n(height))
}

pub fn line(x1: f64, y1: f64, x2: f64, y2: f64, more: &str) -> String {
    format!("<line x1=\"{}\" y1=\"{}\" x2=\"{}\" y2=\"{}\" {more}/>", n(x1), n(y1), n(x2), n(y2))
}

pub fn path(d: &str, more: &str) -> String {
    format!("<path d=\"{d}\" {more}/>")
}

pub fn text(x: f64, y: f64, class: &str, more: &str, text: &str) -> String {
    format!("<text x=\"{}\" y=\"{}\" class=\"{class}\" {more}>{}</text>", n(x), n(y), escape(text))
}

/// A group with a title, which is shown where it is pointed at.
pub fn group(attributes: &str, title: &str, inner: &str) -> String {
    let title = if title.is_empty() { String::new() } else { format!("<title>{}</title>", escape(title)) };
    format!("<g{attributes}>{title}{inner}</g>\n")
}
