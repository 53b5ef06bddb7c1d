//! Sizes, colours and the widths of text.

/// Sizes in pixels at 100 %.
pub const GUTTER: f64 = 70.0;
pub const PAD: f64 = 14.0;
/// A mark stands this far from its column's left edge.
pub const MARK: f64 = 13.0;
pub const SLOT: f64 = 27.0;
pub const COLUMN: f64 = 62.0;
pub const RULER: f64 = 44.0;
pub const BAND: f64 = 21.0;
pub const LINE: f64 = 13.0;
/// From the last column's edge to the clock of an end that lies ahead, with its sign between.
pub const AHEAD: f64 = 17.0;

pub const NARROW: f64 = 852.0;
pub const WIDE: f64 = 1548.0;

pub const INK: &str = "#1d2429";
pub const GREY: &str = "#5b666e";
pub const COMMITTED_FILL: &str = "#c3ccd2";

/// Parties' hues; again from the ninth on. The number is always printed too.
const HUES: [(u8, u8, u8); 8] = [
    (0x1f, 0x5f, 0xa8),
    (0xb8, 0x47, 0x0b),
    (0x0b, 0x7a, 0x5b),
    (0x93, 0x35, 0x7f),
    (0x7d, 0x62, 0x00),
    (0x2b, 0x7f, 0x93),
    (0x5a, 0x4f, 0xb0),
    (0x7a, 0x3b, 0x2e),
];

/// Of party 0, which sends nothing but ticks and frames that are refused.
const NO_HUE: (u8, u8, u8) = (0x5b, 0x66, 0x6e);

/// A party's hue, on white, this solid: 1 is full.
pub fn hue(party: u8, solid: f64) -> String {
    let (r, g, b) = match party.checked_sub(1) {
        Some(place) => HUES[usize::from(place) % HUES.len()],
        None => NO_HUE,
    };
    let mix = |part: u8| (255.0 - (255.0 - f64::from(part)) * solid).round() as u8;
    format!("#{:02x}{:02x}{:02x}", mix(r), mix(g), mix(b))
}

/// Helvetica's widths, from the space to the tilde, in thousandths of the size.
const WIDTHS: [u16; 95] = [
    278, 278, 355, 556, 556, 889, 667, 191, 333, 333, 389, 584, 278, 333, 278, 278, 556, 556, 556, 556, 556, 556, 556,
    556, 556, 556, 278, 278, 584, 584, 584, 556, 1015, 667, 667, 722, 722, 667, 611, 778, 722, 278, 500, 667, 556, 833,
    722, 778, 667, 778, 722, 667, 611, 722, 667, 944, 667, 667, 611, 278, 278, 278, 469, 556, 333, 556, 556, 500, 556,
    556, 278, 556, 556, 222, 222, 500, 222, 833, 556, 556, 556, 556, 333, 500, 278, 556, 500, 722, 500, 500, 500, 334,
    260, 334, 584,
];

/// The width of a text of size 12.
pub fn width(text: &str) -> f64 {
    let part = |letter: char| WIDTHS.get((letter as usize).wrapping_sub(32)).copied().unwrap_or(556);
    text.chars().map(|letter| f64::from(part(letter))).sum::<f64>() * 12.0 / 1000.0
}

pub fn bold_width(text: &str) -> f64 {
    width(text) * 1.07
}
