//! The legend: the same signs, and what they mean.

use super::glyphs;
use super::hatches;
use super::lives::Hold;
use super::metrics::{hue, COMMITTED_FILL, GREY, INK};
use super::svg::{line, path, rect, text};
use crate::frame::short_fields;
use crate::words::Values;

const BLANK_PLACE: Values = Values { fields: [7, 1, 40, 0], blanks: 8 };

fn sign(width: u32, height: u32, inner: &str) -> String {
    format!("<svg xmlns=\"http://www.w3.org/2000/svg\" class=\"hist\" width=\"{width}\" height=\"{height}\" viewBox=\"0 0 {width} {height}\" aria-hidden=\"true\">{inner}</svg>")
}

fn item(signs: &str, meaning: &str) -> String {
    format!("<div>{signs}<span>{meaning}</span></div>")
}

fn head(text: &str) -> String {
    format!("<div class=\"hd\">{text}</div>")
}

/// A piece of an entry's bar. The hues are those of parties 2 and 3.
fn bar(hold: &Hold) -> String {
    let (fill, stroke, dash) = match hold {
        Hold::Taken(_) => ("url(#lh1)".to_string(), hue(2, 1.0), ""),
        Hold::Private(_) => (hue(2, 0.1), hue(2, 1.0), " stroke-dasharray=\"5 4\""),
        _ => (COMMITTED_FILL.to_string(), INK.to_string(), ""),
    };
    let edges = format!("fill=\"none\" stroke=\"{stroke}\" stroke-width=\"1.5\"{dash}");
    let mut inner = rect(1.0, 3.0, 60.0, 20.0, &format!("fill=\"{fill}\"")) + &path("M1 3H61M1 23H61", &edges);
    if matches!(hold, Hold::Read(_)) {
        inner += &rect(1.0, 17.0, 60.0, 6.0, &format!("fill=\"{}\" stroke=\"#fff\" stroke-width=\"0.8\"", hue(3, 1.0)));
    }
    sign(62, 26, &inner)
}

fn ink(width: &str) -> String {
    format!("stroke=\"{INK}\" stroke-width=\"{width}\"")
}

fn entries() -> String {
    let fields = short_fields(&BLANK_PLACE);
    let name = format!("<text x=\"1\" y=\"16\"><tspan class=\"b\">E1</tspan><tspan dx=\"6\">{fields}</tspan></text>");
    let expired = line(6.0, 2.0, 6.0, 26.0, &ink("2.4")) + &glyphs::hourglass(17.0, 14.0, INK, INK);
    let taken =
        rect(1.0, 4.0, 12.0, 20.0, &format!("fill=\"{COMMITTED_FILL}\"")) + &line(13.0, 3.0, 13.0, 25.0, &ink("2.4"));
    let removed = line(3.0, 4.0, 3.0, 24.0, &ink("1.2")) + &glyphs::cross(13.0, 14.0, 9.0, INK);
    let dotted = format!("stroke=\"{GREY}\" stroke-width=\"1.6\" stroke-dasharray=\"1.5 4\"");
    let lease = line(2.0, 10.0, 50.0, 10.0, &dotted) + &glyphs::hourglass(54.0, 10.0, "#fff", GREY);
    let ahead = rect(1.0, 2.0, 24.0, 20.0, &format!("fill=\"{COMMITTED_FILL}\""))
        + &glyphs::chevron(25.0, 12.0, INK)
        + &glyphs::hourglass(33.0, 12.0, "#fff", GREY)
        + &text(42.0, 16.0, "dim", "", "clock 9");
    let renewed = rect(1.0, 3.0, 78.0, 20.0, &format!("fill=\"{COMMITTED_FILL}\""))
        + &glyphs::renewed(12.0, 13.0)
        + &text(21.0, 17.0, "", "", "to clock 9");
    [
        head("Entries, in the space"),
        item(&sign(72, 22, &name), "its number and fields; _ stands for a blank"),
        item(&bar(&Hold::Committed), "committed: all can find it"),
        item(&bar(&Hold::Read(vec![])), "with a read hold: all can read it, others cannot take it"),
        item(&bar(&Hold::Taken(1)), "with a take hold: nobody finds it"),
        item(&bar(&Hold::Private(1)), "private to a transaction: only that finds it"),
        item(&sign(80, 26, &renewed), "renewed: its lease now runs to that clock"),
        item(&sign(24, 28, &expired), "ends: its lease has ended (expired)"),
        item(&sign(18, 28, &taken), "ends: taken"),
        item(&sign(20, 28, &removed), "ends: removed with its transaction, or by a renewal with lease 0"),
        item(&sign(22, 24, &glyphs::never_stored(11.0, 12.0)), "lease 0: never stored"),
        item(&sign(62, 20, &lease), "lease that would have run on"),
        item(&sign(86, 24, &ahead), "goes on; its lease ends at that clock"),
    ]
    .concat()
}

fn transactions() -> String {
    let bar = |end: &str| {
        let fill = format!("fill=\"{}\"", hue(2, 0.16));
        let start = format!("stroke=\"{}\" stroke-width=\"5\"", hue(2, 1.0));
        sign(62, 28, &(rect(4.0, 1.0, 44.0, 26.0, &fill) + &line(4.0, 1.0, 4.0, 27.0, &start) + end))
    };
    [
        head("Transactions, on the owner's line; what stands on the bar happens inside"),
        item(&bar(&glyphs::committed(48.0, 14.0, 2)), "committed"),
        item(&bar(&glyphs::aborted(48.0, 14.0, 2)), "aborted"),
        item(&bar(&glyphs::exception(48.0, 14.0)), "exception: its lease has ended"),
    ]
    .concat()
}

fn registrations() -> String {
    let listens = glyphs::registration(12.0, 60.0, 13.0, 2) + &glyphs::notified(12.0, 13.0, 2);
    let rings = glyphs::registration(1.0, 60.0, 13.0, 2) + &glyphs::rung(30.0, 13.0, 2, 3);
    let ends = glyphs::registration(1.0, 24.0, 13.0, 2) + &glyphs::unregistered(24.0, 13.0, 2);
    [
        head("Registrations, below what their party does meanwhile"),
        item(&sign(62, 26, &listens), "notify: from here on its bell rings"),
        item(&sign(62, 26, &rings), "rung: this step has made so many matching entries public"),
        item(&sign(40, 26, &ends), "ends: its lease has ended (expired)"),
    ]
    .concat()
}

fn requests() -> String {
    let look_up = |takes, if_exists, filled, slashed| {
        sign(22, 22, &glyphs::look_up(11.0, 11.0, takes, if_exists, filled, slashed))
    };
    let dashed = format!("{} stroke-dasharray=\"8 5\"", ink("3.2"));
    let wait = line(12.0, 11.0, 82.0, 11.0, &dashed)
        + &glyphs::look_up(10.0, 11.0, true, false, false, false)
        + &glyphs::deadline(66.0, 11.0)
        + &glyphs::look_up(83.0, 11.0, true, false, true, false);
    let taken = line(11.0, 3.0, 11.0, 31.0, &ink("1.1")) + &glyphs::head_down(11.0, 31.0);
    let ring = format!("<circle cx=\"9\" cy=\"5\" r=\"3\" fill=\"#fff\" {}/>", ink("1.3"));
    let read = line(9.0, 5.0, 9.0, 31.0, &ink("1.1")) + &ring + &glyphs::head_open(9.0, 31.0);
    let dotted = format!("{} stroke-dasharray=\"1.2 3.2\"", ink("1.2"));
    let barred = line(11.0, 5.0, 11.0, 33.0, &dotted) + &line(4.0, 4.0, 18.0, 4.0, &ink("2.6"));
    [
        head("Requests and answers"),
        item(&(sign(20, 22, &glyphs::write(10.0, 12.0)) + &sign(20, 22, &glyphs::renewed(10.0, 11.0))), "write; renew"),
        item(&(look_up(false, false, true, false) + &look_up(true, false, true, false)), "read, take: found"),
        item(&(look_up(false, false, false, true) + &look_up(true, false, false, true)), "nothing"),
        item(&(look_up(false, true, false, false) + &look_up(true, true, true, false)), "readIfExists, takeIfExists"),
        item(&sign(94, 22, &wait), "waits; its deadline; the answer that ends it"),
        item(&sign(24, 24, &glyphs::refused(12.0, 12.0, 7)), "refused, with the number; nothing changed"),
        item(&(sign(22, 34, &taken) + &sign(18, 34, &read)), "the entry handed out: taken; read"),
        item(&sign(22, 34, &barred), "an entry that matches but is barred"),
    ]
    .concat()
}

pub fn legend() -> String {
    format!(
        "<svg xmlns=\"http://www.w3.org/2000/svg\" width=\"0\" height=\"0\" style=\"position:absolute\" aria-hidden=\"true\">{}</svg><div class=\"legend\" role=\"note\" aria-label=\"Legend\">{}{}{}{}</div>\n",
        hatches("l"),
        entries(),
        transactions(),
        registrations(),
        requests()
    )
}
