//! The signs of the drawing, each around a point; the legend shows the same.

use super::metrics::{hue, INK};
use super::svg::{line, n, path, rect};

const ROUND: &str = "stroke-linejoin=\"round\" stroke-linecap=\"round\"";

pub fn hourglass(x: f64, y: f64, fill: &str, stroke: &str) -> String {
    let (l, r, t, b) = (n(x - 5.0), n(x + 5.0), n(y - 6.2), n(y + 6.2));
    path(
        &format!("M{l} {t}H{r}L{l} {b}H{r}Z"),
        &format!("fill=\"{fill}\" stroke=\"{stroke}\" stroke-width=\"1.2\" {ROUND}"),
    )
}

pub fn cross(x: f64, y: f64, size: f64, stroke: &str) -> String {
    let half = size / 2.0;
    path(
        &format!("M{} {}l{size} {size}m0 -{size}l-{size} {size}", n(x - half), n(y - half)),
        &format!("fill=\"none\" stroke=\"{stroke}\" stroke-width=\"2.4\" {ROUND}"),
    )
}

pub fn write(x: f64, y: f64) -> String {
    path(
        &format!("M{} {}L{} {}H{}Z", n(x), n(y - 8.0), n(x + 8.0), n(y + 6.5), n(x - 8.0)),
        &format!("fill=\"{INK}\" stroke=\"{INK}\" stroke-width=\"1.6\" {ROUND}"),
    )
}

/// A lease set anew: in the party's lane, and on the entry's bar.
pub fn renewed(x: f64, y: f64) -> String {
    hourglass(x, y, "#fff", INK)
}

/// A bell, hollow: a registration begins.
pub fn notified(x: f64, y: f64, party: u8) -> String {
    bell(x, y, "#fff", &hue(party, 1.0))
}

/// A bell that rings, with how many are new.
pub fn rung(x: f64, y: f64, party: u8, new: u32) -> String {
    let colour = hue(party, 1.0);
    let size = if new > 9 { 9.0 } else { 11.0 };
    bell(x, y, &colour, &colour) + &letter(x, y + 3.6, size, "#fff", "", &new.to_string())
}

fn bell(x: f64, y: f64, fill: &str, stroke: &str) -> String {
    let rim = n(y + 7.0);
    let body = format!("M{} {rim}l2.5 -3.5v-6.5a7.5 8 0 0 1 15 0v6.5l2.5 3.5Z", n(x - 10.0));
    let clapper = format!("M{} {rim}a2.5 3.5 0 0 0 5 0Z", n(x - 2.5));
    path(&clapper, &format!("fill=\"{stroke}\" stroke=\"{stroke}\" stroke-width=\"1\" {ROUND}"))
        + &path(&body, &format!("fill=\"{fill}\" stroke=\"{stroke}\" stroke-width=\"1.6\" {ROUND}"))
}

/// Where a registration ends, at this point of its bar.
pub fn unregistered(x: f64, y: f64, party: u8) -> String {
    let colour = hue(party, 1.0);
    line(x, y - 8.0, x, y + 8.0, &format!("stroke=\"{colour}\" stroke-width=\"2.4\""))
        + &hourglass(x + 9.0, y, &colour, &colour)
}

/// A registration's bar: slim, in its party's hue.
pub fn registration(left: f64, right: f64, y: f64, party: u8) -> String {
    rect(left, y - 3.0, right - left, 6.0, &format!("fill=\"{}\"", hue(party, 0.45)))
}

/// A look-up: a circle reads, a square takes; filled it has found, slashed it has nothing, hollow it waits.
pub fn look_up(x: f64, y: f64, takes: bool, if_exists: bool, filled: bool, slashed: bool) -> String {
    let fill = if filled { INK } else { "#fff" };
    let stroke = format!("fill=\"{fill}\" stroke=\"{INK}\" stroke-width=\"1.8\"");
    let mut glyph = match takes {
        true => rect(x - 7.0, y - 7.0, 14.0, 14.0, &stroke),
        false => format!("<circle cx=\"{}\" cy=\"{}\" r=\"7.5\" {stroke}/>", n(x), n(y)),
    };
    if slashed {
        let d = format!("M{} {}L{} {}", n(x - 9.5), n(y + 9.5), n(x + 9.5), n(y - 9.5));
        glyph += &path(&d, &format!("fill=\"none\" stroke=\"{INK}\" stroke-width=\"1.8\""));
    }
    if if_exists {
        let (colour, halo) = match filled {
            true => ("#fff", ""),
            false => (INK, "paint-order:stroke;stroke:#fff;stroke-width:4px;"),
        };
        glyph += &letter(x, y + 4.0, 11.0, colour, halo, "?");
    }
    glyph
}

fn letter(x: f64, y: f64, size: f64, colour: &str, halo: &str, text: &str) -> String {
    format!(
        "<text x=\"{}\" y=\"{}\" text-anchor=\"middle\" style=\"{halo}font-size:{size}px;font-weight:bold;fill:{colour}\">{text}</text>",
        n(x),
        n(y)
    )
}

pub fn committed(x: f64, y: f64, party: u8) -> String {
    let hue = hue(party, 1.0);
    let tick = format!("M{} {}l3.6 4.4l6.4 -8.6", n(x - 5.0), n(y));
    rect(x - 9.0, y - 13.0, 18.0, 26.0, &format!("rx=\"2\" fill=\"{hue}\" stroke=\"{hue}\" stroke-width=\"1.5\""))
        + &path(&tick, &format!("fill=\"none\" stroke=\"#fff\" stroke-width=\"2.6\" {ROUND}"))
}

pub fn aborted(x: f64, y: f64, party: u8) -> String {
    let hue = hue(party, 1.0);
    rect(x - 9.0, y - 13.0, 18.0, 26.0, &format!("rx=\"2\" fill=\"#fff\" stroke=\"{hue}\" stroke-width=\"2\""))
        + &cross(x, y, 9.2, &hue)
}

pub fn exception(x: f64, y: f64) -> String {
    let d = format!("M{} {}L{} {}L{} {}Z", n(x - 11.0), n(y + 10.0), n(x), n(y - 12.0), n(x + 11.0), n(y + 10.0));
    path(&d, &format!("fill=\"#fff\" stroke=\"{INK}\" stroke-width=\"2\" {ROUND}"))
        + &letter(x, y + 7.0, 14.0, INK, "", "!")
}

pub fn refused(x: f64, y: f64, number: u8) -> String {
    let corner = |dx: f64, dy: f64| format!("{} {}", n(x + dx), n(y + dy));
    let corners = [
        corner(-4.1, -10.0),
        corner(4.1, -10.0),
        corner(10.0, -4.1),
        corner(10.0, 4.1),
        corner(4.1, 10.0),
        corner(-4.1, 10.0),
        corner(-10.0, 4.1),
        corner(-10.0, -4.1),
    ];
    let size = if number > 9 { 11.0 } else { 12.0 };
    path(&format!("M{}Z", corners.join("L")), &format!("fill=\"{INK}\""))
        + &letter(x, y + 4.2, size, "#fff", "", &number.to_string())
}

/// A dashed diamond: an entry with lease 0, never stored.
pub fn never_stored(x: f64, y: f64) -> String {
    let d = format!("M{} {}l8 -9l8 9l-8 9Z", n(x - 8.0), n(y));
    path(&d, &format!("fill=\"#fff\" stroke=\"{INK}\" stroke-width=\"1.3\" stroke-dasharray=\"3 2.4\""))
}

/// The head of a connector that takes: filled, pointing down to the mark.
pub fn head_down(x: f64, y: f64) -> String {
    let d = format!("M{} {}L{} {}L{} {}Z", n(x - 3.8), n(y - 7.5), n(x), n(y), n(x + 3.8), n(y - 7.5));
    path(&d, &format!("fill=\"{INK}\" stroke=\"{INK}\" stroke-width=\"1\" {ROUND}"))
}

/// The head of a connector that reads: open.
pub fn head_open(x: f64, y: f64) -> String {
    let d = format!("M{} {}L{} {}L{} {}", n(x - 3.8), n(y - 6.5), n(x), n(y), n(x + 3.8), n(y - 6.5));
    path(&d, &format!("fill=\"none\" stroke=\"{INK}\" stroke-width=\"1.3\" {ROUND}"))
}

pub fn head_up(x: f64, y: f64) -> String {
    let d = format!("M{} {}L{} {}L{} {}Z", n(x - 3.5), n(y + 6.5), n(x), n(y), n(x + 3.5), n(y + 6.5));
    path(&d, &format!("fill=\"{INK}\" stroke=\"{INK}\" stroke-width=\"1\" {ROUND}"))
}

/// A bar that goes on in the next or from the last row.
pub fn chevron(x: f64, y: f64, stroke: &str) -> String {
    let d = format!("M{} {}l5 5l-5 5", n(x - 7.0), n(y - 5.0));
    path(&d, &format!("fill=\"none\" stroke=\"{stroke}\" stroke-width=\"1.6\" {ROUND}"))
}

pub fn deadline(x: f64, y: f64) -> String {
    let d = format!("M{} {}H{}V{}H{}", n(x - 5.0), n(y - 10.0), n(x), n(y + 10.0), n(x - 5.0));
    path(&d, &format!("fill=\"none\" stroke=\"{INK}\" stroke-width=\"2.2\" {ROUND}"))
}
