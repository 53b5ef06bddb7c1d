//! Trays as readable text.
//!
//! One frame to a line; `#` begins a comment. D is a number of ticks or `forever`; `in T` may be left out.
//!
//! ```text
//! party P write KIND SIDE IMAGE PLACE lease D in T      `blank` in place of any of the four; PLACE also 2:30
//! party P read any timeout D in T                       also: take, readIfExists, takeIfExists
//! party P take kind K side S image I place L timeout D  (any of the four fields); L also 2:30
//! party P take kind K arc 11:00 to 1:00 timeout D       an arc of the clock face in place of `place L`
//! party P create lease D
//! party P commit T                                      also: abort
//! party P notify kind K lease D                         a template as a look-up's
//! party P renew N lease D                               N is an entry's number
//! tick
//! bytes 01 02 ff                                        a frame given byte by byte
//! expect found 1                                        what the frame above is answered
//! repeat N .. end                                       the lines between, N times
//! ```
//!
//! For trays that are to be refused, the finished tray can be changed: `gap N`, `count N`,
//! `pair I offset O length L`, `size N`.

use crate::bytes::{self, build, put_pair, put_word};
use crate::frame::{show, tick_frame};
use crate::line::{Fault, Line};
use crate::record::{kind_named, Record, Tells, KINDS};

/// A tray is refused beyond 65,536 bytes; a text that goes far beyond is a slip, and would use up the memory.
const MOST_PIECES: usize = 100_000;
const MOST_BYTES: usize = 1 << 24;

/// The first word of a line that begins a tray, in a text of several (`sittings`).
pub const SITTING: &str = "sitting";

/// What one of the records of a frame is to be, or that none is so.
#[derive(Clone, PartialEq, Eq, Debug)]
pub struct Expectation {
    pub line: usize,
    pub text: String,
    pub negated: bool,
    party: Option<u8>,
    kind: u8,
    /// The entry, the registration, the transaction or the refusal, as the kind tells.
    number: Option<u32>,
    /// Of a bell.
    new: Option<u32>,
    so_far: Option<u32>,
}

impl Expectation {
    pub fn is_met_by(&self, record: &Record) -> bool {
        let tells = KINDS.iter().find(|kind| kind.number == record.kind).map(|kind| kind.tells);
        let told = match tells {
            Some(Tells::Entry | Tells::EntryAndFields | Tells::Registration | Tells::Bell) => record.entry,
            Some(Tells::Refusal) => u32::from(record.refusal),
            _ => record.transaction,
        };
        let (new, so_far) = record.bell();
        record.kind == self.kind
            && self.party.is_none_or(|party| party == record.party)
            && self.number.is_none_or(|number| number == told)
            && self.new.is_none_or(|wanted| wanted == new)
            && self.so_far.is_none_or(|wanted| wanted == so_far)
    }
}

/// A frame with what its line says besides.
#[derive(Clone, PartialEq, Eq, Debug)]
pub struct Asked {
    pub frame: Vec<u8>,
    /// As written.
    pub text: String,
    /// The comment behind it.
    pub remark: String,
    pub line: usize,
    pub expectations: Vec<Expectation>,
}

impl Asked {
    /// A frame that no line has.
    pub fn of(frame: Vec<u8>) -> Asked {
        Asked { text: show(&frame), frame, remark: String::new(), line: 0, expectations: Vec::new() }
    }
}

#[derive(Clone, PartialEq, Eq, Debug)]
enum Piece {
    Frame(Asked),
    Gap(usize),
}

#[derive(Clone, PartialEq, Eq, Debug)]
enum Change {
    Count(u32),
    Pair(usize, u32, u32),
    Size(usize),
}

/// What a text says.
#[derive(Clone, Default, PartialEq, Eq, Debug)]
pub struct Text {
    /// The first sentence of the comment at the head, and its rest.
    pub title: String,
    pub lead: String,
    pieces: Vec<Piece>,
    changes: Vec<(usize, Change)>,
}

#[derive(Default)]
struct Parser {
    text: Text,
    /// Of each open repeat: its line, how often, and where its pieces begin.
    repeats: Vec<(usize, usize, usize)>,
}

/// The first sentence of the comment lines at the head of a text, and the rest.
pub fn head(text: &str) -> (String, String) {
    let lines = text.lines().map(str::trim).take_while(|line| line.starts_with('#'));
    let whole: Vec<&str> = lines.map(|line| line.trim_start_matches('#').trim()).collect();
    let whole = whole.join(" ");
    match whole.find(". ") {
        Some(end) => (whole[..=end].to_string(), whole[end + 2..].to_string()),
        None => (whole, String::new()),
    }
}

/// `bytes 01 02 ff`, up to the end of the line or one of these words.
pub fn raw_frame(line: &mut Line, until: &[&str]) -> Result<Vec<u8>, Fault> {
    line.want("bytes")?;
    let mut frame = Vec::new();
    while let Some(word) = line.peek().filter(|word| !until.contains(word)) {
        let digits = word.chars().all(|digit| digit.is_ascii_hexdigit());
        let byte = u8::from_str_radix(word, 16).ok().filter(|_| digits);
        let byte = byte.ok_or_else(|| line.expected("a byte in base 16"))?;
        line.word("a byte")?;
        frame.push(byte);
    }
    Ok(frame)
}

/// A frame, if the line begins one.
pub fn frame_line(line: &mut Line) -> Result<Option<Vec<u8>>, Fault> {
    Ok(Some(match line.peek() {
        Some("party") => {
            line.want("party")?;
            let party = line.number("a party's number, 1 to 16")?;
            let (request, named) = line.request(party)?;
            if let Some(name) = named {
                let what = if request.renews() { "an entry's" } else { "a transaction's" };
                return Err(Fault::new(line.number, format!("expected {what} number, found `{name}`")));
            }
            request.frame()
        }
        Some("tick") => {
            line.want("tick")?;
            tick_frame()
        }
        Some("bytes") => raw_frame(line, &[])?,
        _ => return Ok(None),
    }))
}

pub fn expectation(line: &mut Line) -> Result<Expectation, Fault> {
    line.want("expect")?;
    let text = line.rest();
    let negated = line.passes("no");
    let party = if line.passes("party") { Some(line.number("a party's number")?) } else { None };
    let names: Vec<&str> = KINDS.iter().map(|kind| kind.name).collect();
    let kind = line.peek().and_then(kind_named);
    let kind = kind.ok_or_else(|| line.expected(&format!("an answer ({})", names.join(", "))))?;
    line.word("an answer")?;
    let number = line.number_if_any();
    let mut counted = |word: &[&str], what: &str| match kind.tells == Tells::Bell && line.pass_all(word) {
        true => line.number(what).map(Some),
        false => Ok(None),
    };
    let new = counted(&["new"], "how many are new")?;
    let so_far = counted(&["so", "far"], "how many there are so far")?;
    Ok(Expectation { line: line.number, text, negated, party, kind: kind.number, number, new, so_far })
}

impl Parser {
    fn push(&mut self, line: usize, piece: Piece) -> Result<(), Fault> {
        if self.text.pieces.len() >= MOST_PIECES {
            return Err(Fault::new(line, format!("expected at most {MOST_PIECES} frames and gaps")));
        }
        self.text.pieces.push(piece);
        Ok(())
    }

    fn last_frame(&mut self) -> Option<&mut Asked> {
        match self.text.pieces.last_mut() {
            Some(Piece::Frame(asked)) => Some(asked),
            _ => None,
        }
    }

    fn end(&mut self, line: &Line) -> Result<(), Fault> {
        let repeat = self.repeats.pop();
        let (_, times, begin) = repeat.ok_or_else(|| Fault::new(line.number, "expected a `repeat` before `end`"))?;
        let body = self.text.pieces.split_off(begin);
        let times = if body.is_empty() { 0 } else { times };
        if body.len().saturating_mul(times) > MOST_PIECES {
            return Err(Fault::new(line.number, format!("expected at most {MOST_PIECES} frames and gaps")));
        }
        for _ in 0..times {
            body.iter().try_for_each(|piece| self.push(line.number, piece.clone()))?;
        }
        Ok(())
    }

    fn bytes(line: &mut Line, what: &str) -> Result<usize, Fault> {
        let what = format!("{what} (at most {MOST_BYTES} bytes)");
        let at = line.clone();
        match line.number(&what)? {
            bytes if bytes > MOST_BYTES => Err(at.expected(&what)),
            bytes => Ok(bytes),
        }
    }

    fn change(&mut self, line: &mut Line) -> Result<(), Fault> {
        let change = match line.word("a line's first word")? {
            "count" => Change::Count(line.number("a count")?),
            "size" => Change::Size(Parser::bytes(line, "a size")?),
            _ => {
                let place = line.number("a pair's place, from 1")?;
                line.want("offset")?;
                let offset = line.number("an offset")?;
                line.want("length")?;
                Change::Pair(place, offset, line.number("a length")?)
            }
        };
        self.text.changes.push((line.number, change));
        Ok(())
    }

    /// A comment that is moved in goes on with the remark above it.
    fn comment(&mut self, comment: &str) {
        if let Some(asked) = self.last_frame() {
            asked.remark = format!("{} {comment}", asked.remark).trim().to_string();
        }
    }

    fn line(&mut self, line: &mut Line, whole: &str) -> Result<(), Fault> {
        if line.is_empty() {
            if whole.starts_with(' ') {
                self.comment(line.comment);
            }
            return Ok(());
        }
        if let Some(frame) = frame_line(line)? {
            let (text, remark) = (line.text.to_string(), line.comment.to_string());
            let asked = Asked { frame, text, remark, line: line.number, expectations: Vec::new() };
            return self.push(line.number, Piece::Frame(asked));
        }
        match line.peek() {
            Some("expect") => {
                let expectation = expectation(line)?;
                let frame = self.last_frame();
                let frame = frame.ok_or_else(|| Fault::new(line.number, "expected a frame before `expect`"))?;
                frame.expectations.push(expectation);
            }
            Some("gap") => {
                line.want("gap")?;
                let bytes = Parser::bytes(line, "a gap")?;
                self.push(line.number, Piece::Gap(bytes))?;
            }
            Some("repeat") => {
                line.want("repeat")?;
                self.repeats.push((line.number, line.number("how often")?, self.text.pieces.len()));
            }
            Some("end") => {
                line.want("end")?;
                self.end(line)?;
            }
            Some("count" | "size" | "pair") => self.change(line)?,
            Some(SITTING) => {
                let why = "expected the text of one tray, found several sittings (`tray sittings --show` gives each)";
                return Err(Fault::new(line.number, why));
            }
            _ => {
                let lines = "`party`, `tick`, `bytes`, `expect`, `repeat`, `end`, `gap`, `count`, `pair` or `size`";
                return Err(line.expected(&format!("a line that begins with {lines}")));
            }
        }
        Ok(())
    }
}

/// The text that bytes are; none if they are a tray's. Many a tray is UTF-8, but one without a byte of 0 is refused:
/// its count is above 2,000, or it has none.
pub fn of_bytes(bytes: &[u8]) -> Option<&str> {
    let text = std::str::from_utf8(bytes).ok().filter(|text| !text.contains('\0'))?;
    // Some editors put a mark of the byte order before the text.
    Some(text.strip_prefix('\u{feff}').unwrap_or(text))
}

/// What the text says, or the first thing that is wrong with it.
pub fn parse(text: &str) -> Result<Text, Fault> {
    let mut parser = Parser::default();
    (parser.text.title, parser.text.lead) = head(text);
    for (place, whole) in text.lines().enumerate() {
        let mut line = Line::new(place + 1, whole);
        parser.line(&mut line, whole)?;
        line.finish()?;
    }
    match parser.repeats.last() {
        Some(&(line, ..)) => Err(Fault::new(line, "expected an `end` for this `repeat`, the text ends")),
        None => Ok(parser.text),
    }
}

impl Text {
    /// A text of these frames.
    pub fn of(title: &str, frames: Vec<Asked>) -> Text {
        Text { title: title.to_string(), pieces: frames.into_iter().map(Piece::Frame).collect(), ..Text::default() }
    }

    pub fn frames(&self) -> impl Iterator<Item = &Asked> {
        self.pieces.iter().filter_map(|piece| match piece {
            Piece::Frame(asked) => Some(asked),
            Piece::Gap(_) => None,
        })
    }

    /// Without the changes.
    fn plain_tray(&self) -> Result<Vec<u8>, Fault> {
        let pieces = self.pieces.iter().map(|piece| match piece {
            Piece::Frame(asked) => bytes::Piece::Frame(&asked.frame),
            Piece::Gap(bytes) => bytes::Piece::Gap(*bytes),
        });
        let bytes = |piece| match piece {
            bytes::Piece::Frame(frame) => frame.len(),
            bytes::Piece::Gap(bytes) => bytes,
        };
        if pieces.clone().map(bytes).sum::<usize>() > MOST_BYTES {
            return Err(Fault::new(0, format!("expected a tray of at most {MOST_BYTES} bytes")));
        }
        Ok(build(pieces))
    }

    /// The tray that the text stands for.
    pub fn tray(&self) -> Result<Vec<u8>, Fault> {
        let mut tray = self.plain_tray()?;
        for (line, change) in &self.changes {
            let done = match change {
                Change::Count(count) => put_word(&mut tray, 0, *count),
                Change::Size(bytes) => {
                    tray.resize(*bytes, 0);
                    Some(())
                }
                Change::Pair(place, offset, length) => put_pair(&mut tray, *place, *offset, *length),
            };
            let bytes = tray.len();
            done.ok_or_else(|| {
                Fault::new(*line, format!("expected a place inside the tray, which has {bytes} bytes"))
            })?;
        }
        Ok(tray)
    }
}
