//! Sittings from files: a tray's bytes, the text of a tray, or a text with several sittings.

use super::Sitting;
use crate::line::{Fault, Line};
use crate::text::{self, SITTING};

/// The sittings of a file: one with the file's name, or those that its lines begin.
pub fn parse(name: &str, bytes: Vec<u8>) -> Result<Vec<Sitting>, Fault> {
    let name = name.to_string();
    let Some(text) = text::of_bytes(&bytes) else { return Ok(vec![Sitting { name, tray: bytes }]) };
    let lines: Vec<&str> = text.lines().collect();
    let begins = |line: &&str| Line::new(0, line).passes(SITTING);
    let Some(first) = lines.iter().position(begins) else {
        return Ok(vec![Sitting { name, tray: text::parse(text)?.tray()? }]);
    };
    if let Some(line) = lines[..first].iter().position(|line| !Line::new(0, line).is_empty()) {
        return Err(Fault::new(line + 1, format!("expected `{SITTING} NAME` before the first frame")));
    }
    let beginnings: Vec<usize> = (first..lines.len()).filter(|&place| begins(&lines[place])).collect();
    let ends = beginnings.iter().skip(1).copied().chain([lines.len()]);
    beginnings.iter().zip(ends).map(|(&begin, end)| sitting(begin + 1, &lines[begin..end])).collect()
}

/// `sitting NAME` and the text of its tray: these lines, the first of which has this number.
fn sitting(number: usize, lines: &[&str]) -> Result<Sitting, Fault> {
    let mut head = Line::new(number, lines[0]);
    head.want(SITTING)?;
    let name = head.rest();
    head.word("a name for the sitting")?;
    let in_file = |fault: Fault| Fault { line: number + fault.line, ..fault };
    let tray = text::parse(&lines[1..].join("\n")).and_then(|text| text.tray()).map_err(in_file)?;
    Ok(Sitting { name, tray })
}
