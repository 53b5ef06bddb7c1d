//! A line of text as words, read one after the other; what is wrong names the line and what was expected.

use crate::face::place_at;
use crate::frame::{operation_named, Class, Operation, Part, Request, BLANK, FIELD_NAMES, OPERATIONS};
use crate::words::{Arc, Template, Values, FOREVER, MASK_ARC, MASK_PLACE, PLACE, PLACES};

/// What is wrong with a text. Line 0 stands for the text as a whole.
#[derive(Clone, PartialEq, Eq, Debug)]
pub struct Fault {
    pub line: usize,
    pub why: String,
}

impl Fault {
    pub fn new(line: usize, why: impl Into<String>) -> Fault {
        Fault { line, why: why.into() }
    }

    pub fn in_file(&self, file: &str) -> String {
        match self.line {
            0 => format!("{file}: {}", self.why),
            line => format!("{file}:{line}: {}", self.why),
        }
    }
}

const TEMPLATE: &str =
    "a template: `any`, or `kind K side S image I place L`, each may be left out, and `arc A to B` for the last";
const TIME: &str = "a time of the clock face: hour 1 to 12, minutes 00 to 59 in two digits, as in 2:05";

/// The words of a line, without its comment.
#[derive(Clone, Debug)]
pub struct Line<'a> {
    pub number: usize,
    /// Without the comment, trimmed.
    pub text: &'a str,
    /// The comment's text, trimmed.
    pub comment: &'a str,
    words: Vec<&'a str>,
    next: usize,
}

impl<'a> Line<'a> {
    pub fn new(number: usize, whole: &'a str) -> Line<'a> {
        let (text, comment) = whole.split_once('#').unwrap_or((whole, ""));
        let (text, comment) = (text.trim(), comment.trim());
        Line { number, text, comment, words: text.split_whitespace().collect(), next: 0 }
    }

    pub fn is_empty(&self) -> bool {
        self.words.is_empty()
    }

    pub fn peek(&self) -> Option<&'a str> {
        self.words.get(self.next).copied()
    }

    /// The words that are still to be read.
    pub fn rest(&self) -> String {
        self.words[self.next..].join(" ")
    }

    pub fn expected(&self, what: &str) -> Fault {
        let found = match self.peek() {
            Some(word) => format!("found `{word}`"),
            None => "the line ends".to_string(),
        };
        Fault::new(self.number, format!("expected {what}, {found}"))
    }

    pub fn word(&mut self, what: &str) -> Result<&'a str, Fault> {
        let word = self.peek().ok_or_else(|| self.expected(what))?;
        self.next += 1;
        Ok(word)
    }

    /// Passes over the word, if it comes next.
    pub fn passes(&mut self, word: &str) -> bool {
        let comes = self.peek() == Some(word);
        self.next += usize::from(comes);
        comes
    }

    /// Passes over all these words, if they come next.
    pub fn pass_all(&mut self, words: &[&str]) -> bool {
        let comes = self.words[self.next..].starts_with(words);
        self.next += if comes { words.len() } else { 0 };
        comes
    }

    pub fn want(&mut self, wanted: &str) -> Result<(), Fault> {
        if self.passes(wanted) {
            return Ok(());
        }
        Err(self.expected(&format!("`{wanted}`")))
    }

    pub fn number<N: std::str::FromStr>(&mut self, what: &str) -> Result<N, Fault> {
        self.number_if_any().ok_or_else(|| self.expected(what))
    }

    pub fn number_if_any<N: std::str::FromStr>(&mut self) -> Option<N> {
        let digits = self.peek().filter(|word| word.bytes().all(|byte| byte.is_ascii_digit()))?;
        let number = digits.parse().ok()?;
        self.next += 1;
        Some(number)
    }

    pub fn duration(&mut self, what: &str) -> Result<u32, Fault> {
        if self.passes("forever") {
            return Ok(FOREVER);
        }
        self.number(&format!("{what} (a number of ticks below {FOREVER}, or `forever`)"))
    }

    pub fn finish(&self) -> Result<(), Fault> {
        match self.peek() {
            None => Ok(()),
            Some(_) => Err(self.expected("the end of the line")),
        }
    }

    /// A number, or a time of the clock face.
    fn place(&mut self, what: &str) -> Result<u32, Fault> {
        let Some(time) = self.peek().filter(|word| word.contains(':')) else { return self.number(what) };
        let place = place_at(time).ok_or_else(|| self.expected(TIME))?;
        self.next += 1;
        Ok(place)
    }

    /// A field's number; that of the place may be a time.
    pub fn field(&mut self, field: usize) -> Result<u32, Fault> {
        self.field_or_blank(field, false)
    }

    /// The same, where it could be blank.
    fn field_or_blank(&mut self, field: usize, blank: bool) -> Result<u32, Fault> {
        let name = FIELD_NAMES[field];
        match (field == PLACE, blank) {
            (true, true) => self.place(&format!("`{BLANK}`, a number or a time (2:30) for {name}")),
            (true, false) => self.place(&format!("a number or a time (2:30) for {name}")),
            (false, true) => self.number(&format!("`{BLANK}` or a number for {name}")),
            (false, false) => self.number(&format!("a number for {name}")),
        }
    }

    /// What is written: four numbers, or `blank` in place of any.
    fn values(&mut self) -> Result<Values, Fault> {
        let mut values = Values::default();
        for i in 0..FIELD_NAMES.len() {
            if self.passes(BLANK) {
                values.blanks |= 1 << i;
            } else {
                values.fields[i] = self.field_or_blank(i, true)?;
            }
        }
        Ok(values)
    }

    /// A place of the clock face.
    pub fn on_the_face(&mut self, what: &str) -> Result<u32, Fault> {
        let what = format!("{what}: a time (2:30) or a number from 0 to {}", PLACES - 1);
        let at = self.clone();
        match self.place(&what)? {
            place if place < PLACES => Ok(place),
            _ => Err(at.expected(&what)),
        }
    }

    /// `A to B`, or `start S length L`, which may be one that is refused.
    pub fn arc(&mut self) -> Result<Arc, Fault> {
        if self.passes("start") {
            let start = self.number::<u16>("the arc's start, a number up to 65535")?;
            self.want("length")?;
            let length = self.number::<u16>("the arc's length, a number up to 65535")?;
            return Ok(Arc { start: start.into(), length: length.into() });
        }
        let start = self.on_the_face("where the arc begins")?;
        if !self.passes("to") {
            return Err(self.expected("`to` and where the arc ends"));
        }
        Ok(Arc::between(start, self.on_the_face("where the arc ends")?))
    }

    pub fn template(&mut self) -> Result<Template, Fault> {
        let mut template = Template { mask: 0, fields: [0; 4] };
        if self.passes("any") {
            return Ok(template);
        }
        for (i, name) in FIELD_NAMES.iter().enumerate() {
            if self.passes(name) {
                template.mask |= 1 << i;
                template.fields[i] = self.field(i)?;
            }
        }
        if template.mask & MASK_PLACE == 0 && self.passes("arc") {
            template.mask |= MASK_ARC;
            template.fields[PLACE] = self.arc()?.field();
        }
        match (template.mask, self.peek()) {
            (0, _) => Err(self.expected(TEMPLATE)),
            (_, Some("arc" | "place")) => Err(self.expected("`place` or `arc` only once")),
            _ => Ok(template),
        }
    }

    fn operation(&mut self) -> Result<&'static Operation, Fault> {
        let named = self.peek().and_then(operation_named).filter(|operation| operation.class != Class::Tick);
        let names: Vec<&str> = OPERATIONS.iter().filter(|row| row.class != Class::Tick).map(|row| row.name).collect();
        let operation = named.ok_or_else(|| self.expected(&format!("an operation ({})", names.join(", "))))?;
        self.next += 1;
        Ok(operation)
    }

    /// A number, or a name, which is handed out. The word that comes behind an entry is no name of one.
    fn number_or_name(&mut self, what: &str, number: &mut u32) -> Result<Option<String>, Fault> {
        if let Some(given) = self.number_if_any() {
            *number = given;
            return Ok(None);
        }
        if self.peek() == Some("lease") {
            return Err(self.expected(what));
        }
        Ok(Some(self.word(what)?.to_string()))
    }

    /// An operation and its parts; a transaction or the entry that is renewed may be given by a name, which is then
    /// handed out.
    pub fn request(&mut self, party: u8) -> Result<(Request, Option<String>), Fault> {
        let mut request = Request::new(self.operation()?, party);
        let mut named = None;
        for part in request.operation.parts {
            match part {
                Part::Fields => {
                    let values = self.values()?;
                    (request.mask, request.fields) = (values.blanks, values.fields);
                }
                Part::Template => {
                    let template = self.template()?;
                    (request.mask, request.fields) = (template.mask, template.fields);
                }
                Part::Lease => {
                    self.want("lease")?;
                    request.duration = self.duration("a lease")?;
                }
                Part::Timeout => {
                    self.want("timeout")?;
                    request.duration = self.duration("a timeout")?;
                }
                Part::Inside if !self.passes("in") => {}
                Part::Inside | Part::Transaction => {
                    named = self.number_or_name("a transaction", &mut request.transaction)?;
                }
                Part::Entry => named = self.number_or_name("an entry", &mut request.entry)?,
            }
        }
        Ok((request, named))
    }
}
