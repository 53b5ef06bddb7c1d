//! The drawing of a history: hue says who, shape what, solidity who can see it, left to right when.

pub mod faces;
mod glyphs;
pub mod labels;
pub mod layout;
pub mod legend;
pub mod lives;
pub mod metrics;
pub mod page;
mod paint;
pub mod report;
pub mod svg;

use crate::history::History;
use layout::Layout;
use metrics::{hue, NARROW};
use paint::Painter;
pub use paint::{Pointed, Style};
use svg::{escape, n};

const CSS: &str = "\
.hist text{font-family:Helvetica,Arial,'Liberation Sans',sans-serif;font-size:12px;fill:#1d2429}\n\
.hist .h{paint-order:stroke;stroke:#fff;stroke-width:3px;stroke-linejoin:round}\n\
.hist .b{font-weight:bold}\n.hist .dim{fill:#5b666e}\n.hist a:hover text{text-decoration:underline}\n";

/// The hatches of take holds, a direction and a hue for each party.
pub fn hatches(prefix: &str) -> String {
    let hatch = |party: u8| {
        let turn = if party % 2 == 1 { 135 } else { 45 };
        format!(
            "<pattern id=\"{prefix}h{}\" width=\"7\" height=\"7\" patternUnits=\"userSpaceOnUse\" patternTransform=\"rotate({turn})\"><rect width=\"7\" height=\"7\" fill=\"#fff\"/><rect width=\"2.6\" height=\"7\" fill=\"{}\"/></pattern>",
            party - 1,
            hue(party, 0.62)
        )
    };
    format!("<defs>{}</defs>", (1..=8).map(hatch).collect::<String>())
}

/// The rows of the drawing in this width: of each its elements, width, height, first and last frame.
struct Row {
    inner: String,
    width: f64,
    height: f64,
    frames: (usize, usize),
}

fn rows(history: &History, layout: &Layout, room: f64, style: &Style) -> Vec<Row> {
    let row = |system: layout::System| {
        let (inner, height) = Painter::new(history, layout, &system, style).paint();
        let first = *layout.columns[*system.columns.start()].frames.start();
        let last = *layout.columns[*system.columns.end()].frames.end();
        Row { inner, width: system.width, height, frames: (first + 1, last + 1) }
    };
    layout.cut(room).into_iter().map(row).collect()
}

/// A drawing for a page: each row an SVG of its own, so that print does not divide it.
pub fn rows_html(history: &History, room: f64, style: &Style) -> String {
    let layout = Layout::new(history);
    let mut html = String::new();
    for (place, row) in rows(history, &layout, room, style).into_iter().enumerate() {
        let defs = if place == 0 { hatches(style.prefix) } else { String::new() };
        let (first, last) = row.frames;
        html += &format!(
            "<div class=\"sys\"><svg xmlns=\"http://www.w3.org/2000/svg\" class=\"hist\" width=\"{w}\" height=\"{h}\" viewBox=\"0 0 {w} {h}\" role=\"img\" aria-label=\"{}, frames {first} to {last}\">{defs}\n{}</svg></div>\n",
            escape(&history.title),
            row.inner,
            w = n(row.width),
            h = n(row.height)
        );
    }
    html
}

/// A drawing as a file of its own: the rows one below the other.
pub fn svg_file(history: &History, room: f64) -> String {
    let layout = Layout::new(history);
    let rows = rows(history, &layout, room, &Style { prefix: "", links: false, names: &[], pointed: None });
    let wide = rows.iter().map(|row| row.width).fold(0.0, f64::max);
    let (mut y, mut inner) = (0.0, String::new());
    for row in rows {
        inner += &format!("<g transform=\"translate(0 {})\">\n{}</g>\n", n(y), row.inner);
        y += row.height + 26.0;
    }
    document(wide, (y - 26.0).max(1.0), &history.title, &hatches(""), &inner)
}

/// A picture as a file of its own, on white.
fn document(width: f64, height: f64, title: &str, defs: &str, inner: &str) -> String {
    let (w, h) = (n(width), n(height));
    let size = format!("width=\"{w}\" height=\"{h}\"");
    let root = format!("<svg xmlns=\"http://www.w3.org/2000/svg\" class=\"hist\" {size} viewBox=\"0 0 {w} {h}\">");
    let head = format!("<title>{}</title>\n<style>{CSS}</style>{defs}", escape(title));
    format!("{root}\n{head}\n<rect {size} fill=\"#fff\"/>\n{inner}</svg>\n")
}

/// What a file with this name is to have: a page or a picture, as it ends; or what was expected.
pub fn for_file(file: &str, history: &History, source: &str, width: f64) -> Result<String, String> {
    match file.rsplit('.').next() {
        Some("html") => Ok(page::page(history, source)),
        Some("svg") => Ok(svg_file(history, width)),
        _ => Err(format!("expected a file that ends with .html or .svg, found `{file}`")),
    }
}

pub fn default_width() -> f64 {
    NARROW
}
