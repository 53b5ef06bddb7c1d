//! Two clock faces side by side: a place or an arc, and its mirror.

use super::document;
use super::metrics::{hue, GREY, INK};
use super::svg::{line, n, path, text};
use crate::face::{place_of_hour, Mirrored};
use crate::words::{Arc, PLACES};

const WIDTH: f64 = 480.0;
const HEIGHT: f64 = 252.0;
/// From the left edge to the left face's centre, and from the right edge to the other's.
const CENTRE: f64 = 120.0;
const MIDDLE: f64 = 134.0;
const RADIUS: f64 = 88.0;
/// Of the hours' numbers, which stand inside.
const INNER: f64 = 70.0;

/// Where a place is, this far from the face's centre.
fn at(centre: f64, radius: f64, place: u32) -> (f64, f64) {
    let turn = f64::from(place) / f64::from(PLACES) * std::f64::consts::TAU;
    (centre + radius * turn.sin(), MIDDLE - radius * turn.cos())
}

fn dot(centre: f64, place: u32, fill: &str) -> String {
    let (x, y) = at(centre, RADIUS, place);
    format!("<circle cx=\"{}\" cy=\"{}\" r=\"6\" fill=\"{fill}\"/>\n", n(x), n(y))
}

fn dial(centre: f64) -> String {
    let ring = format!("r=\"{}\" fill=\"none\" stroke=\"{GREY}\" stroke-width=\"1.4\"", n(RADIUS));
    let circle = format!("<circle cx=\"{}\" cy=\"{}\" {ring}/>\n", n(centre), n(MIDDLE));
    let hour = |hour: u32| {
        let (x, y) = at(centre, INNER, place_of_hour(hour)?);
        Some(text(x, y + 4.0, "dim", "text-anchor=\"middle\"", &hour.to_string()) + "\n")
    };
    circle + &(1..=12).filter_map(hour).collect::<String>()
}

/// The arc, from its start clockwise to its end, and both ends.
fn part(centre: f64, arc: Arc, party: u8) -> String {
    let (colour, end) = (hue(party, 1.0), arc.end().unwrap_or(arc.start));
    let ((x1, y1), (x2, y2)) = (at(centre, RADIUS, arc.start), at(centre, RADIUS, end));
    let large = u8::from(2 * arc.length > PLACES);
    let d = format!("M{} {}A{RADIUS} {RADIUS} 0 {large} 1 {} {}", n(x1), n(y1), n(x2), n(y2));
    let drawn = path(&d, &format!("fill=\"none\" stroke=\"{}\" stroke-width=\"8\"", hue(party, 0.5)));
    drawn + "\n" + &dot(centre, arc.start, &colour) + &dot(centre, end, &colour)
}

pub fn svg(asked: &Mirrored) -> String {
    let face = |centre: f64, above: &str, arc: Arc, party: u8| {
        let said = |y: f64, class: &str, words: &str| text(centre, y, class, "text-anchor=\"middle\"", words) + "\n";
        let below = if asked.is_place { format!("place {}", arc.start) } else { arc.words() };
        said(20.0, "b", above) + &dial(centre) + &part(centre, arc, party) + &said(HEIGHT - 8.0, "", &below)
    };
    let dashed = format!("stroke=\"{INK}\" stroke-width=\"1.4\" stroke-dasharray=\"6 5\"");
    let (name, mirror) = (asked.name(asked.arc), format!("mirrored: {}", asked.name(asked.mirror)));
    let inner = face(CENTRE, &name, asked.arc, 1)
        + &face(WIDTH - CENTRE, &mirror, asked.mirror, 2)
        + &line(WIDTH / 2.0, 30.0, WIDTH / 2.0, HEIGHT - 24.0, &dashed);
    document(WIDTH, HEIGHT, &name, "", &(inner + "\n"))
}
