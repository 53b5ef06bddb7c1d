//! Panes as small scripts: starting frames, what each pane sends and does after its answers, ticks, claims.

use crate::claim::{self, Claim};
use crate::frame::{Class, Request};
use crate::line::{Fault, Line};
use crate::record::{EXCEPTION, FOUND, NOTHING, REFUSED};
use crate::text::{expectation, frame_line, head, raw_frame, Asked};

/// Parties are 1 to 16, and a pane is a party.
pub const MOST_PANES: usize = 16;
pub const MOST_CLAIMS: usize = 24;

/// The answers after which a pane may do something else than go on.
pub const EVENTS: [(&str, u8); 4] =
    [("found", FOUND), ("nothing", NOTHING), ("exception", EXCEPTION), ("refusal", REFUSED)];

#[derive(Clone, Copy, PartialEq, Eq, Debug)]
pub enum Action {
    Stop,
    StartOver,
    /// At the line with this place.
    GoOnAt(usize),
    GoOn,
}

/// By the places of EVENTS.
pub type Reactions = [Option<Action>; EVENTS.len()];

/// A line of a pane: a frame that it sends, or where it listens for a bell.
#[derive(Clone, Debug)]
pub struct Sent {
    pub label: Option<String>,
    /// `await bell`: it sends nothing, and goes on when a bell has come.
    pub awaits_bell: bool,
    /// With the number of its transaction, or of the entry that it renews, left out if that is given by a name.
    pub frame: Vec<u8>,
    /// What it asks for; none of bytes that no request gives.
    pub request: Option<Request>,
    /// The name of the transaction it is inside, or ends, or of the entry that it renews: its place in the pane's names.
    pub inside: Option<usize>,
    /// The name that a created transaction gets, or an entry that is written or found.
    pub names: Option<usize>,
    pub reactions: Reactions,
    /// What it does after any other answer: `then ..`.
    pub then: Option<Action>,
    /// As written, without label and reactions.
    pub text: String,
    pub line: usize,
}

impl Sent {
    fn is(&self, test: impl Fn(&Request) -> bool) -> bool {
        self.request.as_ref().is_some_and(test)
    }
}

/// Whether an answer to it brings a number that can be named: of a new transaction, or of an entry.
fn brings_number(request: &Request) -> bool {
    matches!(request.operation.class, Class::Create | Class::Write | Class::LookUp { .. })
}

#[derive(Clone, Debug)]
pub struct Pane {
    pub name: String,
    pub party: u8,
    /// How often the script is gone through; the end of the script then starts over.
    pub rounds: Option<u32>,
    pub names: Vec<String>,
    pub sent: Vec<Sent>,
    pub reactions: Reactions,
}

impl Pane {
    /// Whether it listens for bells anywhere.
    pub fn listens(&self) -> bool {
        self.sent.iter().any(|sent| sent.awaits_bell)
    }

    pub fn line_labelled(&self, label: &str) -> Option<usize> {
        self.sent.iter().position(|sent| sent.label.as_deref() == Some(label))
    }

    /// Whether a name that a line uses is given, and for what the line wants it for.
    fn has_given(&self, sent: &Sent) -> Result<(), Fault> {
        let Some(place) = sent.inside else { return Ok(()) };
        let renews = sent.is(Request::renews);
        let creates = |other: &Sent| other.is(|request| request.operation.class == Class::Create);
        let mut givers = self.sent.iter().filter(|other| other.names == Some(place)).peekable();
        if givers.peek().is_some() && givers.all(|giver| creates(giver) != renews) {
            return Ok(());
        }
        let gives = if renews { "`write .. as` or a look-up's `as`" } else { "`create .. as`" };
        let why = format!("expected a name that a {gives} gives, found `{}`", self.names[place]);
        Err(Fault::new(sent.line, why))
    }

    pub fn reaction(&self, sent: &Sent, kind: u8) -> Action {
        let place = EVENTS.iter().position(|(_, event)| *event == kind);
        let action = place.and_then(|place| sent.reactions[place].or(self.reactions[place]));
        let succeeds = !matches!(kind, NOTHING | EXCEPTION | REFUSED);
        action.or(sent.then.filter(|_| succeeds)).unwrap_or(Action::GoOn)
    }
}

/// How large the exploration is to be, where the script says so.
#[derive(Clone, PartialEq, Eq, Debug)]
pub struct Size {
    pub line: usize,
    pub what: String,
    pub number: String,
}

#[derive(Clone, Default, Debug)]
pub struct Script {
    pub title: String,
    pub lead: String,
    pub start: Vec<Asked>,
    pub panes: Vec<Pane>,
    pub ticks: u32,
    pub claims: Vec<Claim>,
    pub sizes: Vec<Size>,
}

/// A jump whose label is looked for when its pane is complete: its line, the place of its frame if it stands behind one,
/// the event if it is for one.
struct Jump {
    line: usize,
    sent: Option<usize>,
    event: Option<usize>,
    label: String,
}

#[derive(Default)]
struct Parser {
    script: Script,
    jumps: Vec<Jump>,
    has_ticks: bool,
}

fn name(line: &mut Line, what: &str) -> Result<String, Fault> {
    let good = |word: &&str| word.chars().next().is_some_and(char::is_alphabetic);
    let word = line.peek().filter(good).ok_or_else(|| line.expected(what))?;
    line.word(what)?;
    Ok(word.to_string())
}

fn place_of(names: &mut Vec<String>, name: &str) -> usize {
    names.iter().position(|known| known == name).unwrap_or_else(|| {
        names.push(name.to_string());
        names.len() - 1
    })
}

/// A pane's frame, with the name of its transaction, or of the entry that it renews, if that is given by one; none of
/// `await bell`.
fn sent_frame(line: &mut Line, party: u8) -> Result<(Option<Vec<u8>>, Option<String>), Fault> {
    if line.passes("await") {
        line.want("bell")?;
        return Ok((None, None));
    }
    if line.peek() != Some("bytes") {
        let (request, inside) = line.request(party)?;
        return Ok((Some(request.frame()), inside));
    }
    let frame = raw_frame(line, &["after", "then"])?;
    if Request::of(&frame).is_some_and(|request| request.operation.class == Class::Tick) {
        return Err(Fault::new(line.number, "expected a frame that is no tick: `ticks at most N` is for these"));
    }
    Ok((Some(frame), None))
}

impl Parser {
    fn pane(&mut self, line: &mut Line) -> Result<(), Fault> {
        line.want("pane")?;
        let name = name(line, "a name for the pane")?;
        line.want("party")?;
        let at = line.clone();
        let party = line.number("a party's number, 1 to 16")?;
        if !(1..=MOST_PANES as u8).contains(&party) {
            return Err(at.expected("a party's number, 1 to 16"));
        }
        if self.script.panes.iter().any(|pane| pane.name == name || pane.party == party) {
            return Err(Fault::new(line.number, "expected a name and a party that no other pane has"));
        }
        let pane = Pane { name, party, rounds: None, names: vec![], sent: vec![], reactions: [None; EVENTS.len()] };
        self.script.panes.push(pane);
        Ok(())
    }

    /// `after EVENT ACTION`, behind a frame or for the whole pane.
    fn after(&mut self, line: &mut Line, sent: Option<usize>) -> Result<(usize, Option<Action>), Fault> {
        line.want("after")?;
        let event = line.peek().and_then(|word| EVENTS.iter().position(|(name, _)| *name == word));
        let event = event.ok_or_else(|| line.expected("an answer (found, nothing, exception, refusal)"))?;
        line.word("an answer")?;
        Ok((event, self.deed(line, sent, Some(event))?))
    }

    /// What a pane does; none yet for a jump, whose label may come later.
    fn deed(&mut self, line: &mut Line, sent: Option<usize>, event: Option<usize>) -> Result<Option<Action>, Fault> {
        if line.passes("stop") {
            return Ok(Some(Action::Stop));
        }
        if line.pass_all(&["start", "over"]) {
            return Ok(Some(Action::StartOver));
        }
        if line.pass_all(&["go", "on", "at"]) {
            let label = name(line, "a label")?;
            self.jumps.push(Jump { line: line.number, sent, event, label });
            return Ok(None);
        }
        if line.pass_all(&["go", "on"]) {
            return Ok(Some(Action::GoOn));
        }
        Err(line.expected("what to do (`stop`, `start over`, `go on`, `go on at LABEL`)"))
    }

    fn sent(&mut self, line: &mut Line) -> Result<(), Fault> {
        let place = self.script.panes.len() - 1;
        let label = line.peek().and_then(|word| word.strip_suffix(':')).map(str::to_string);
        if label.is_some() {
            line.word("a label")?;
        }
        let begin = line.rest();
        let (frame, inside) = sent_frame(line, self.script.panes[place].party)?;
        let (awaits_bell, frame) = (frame.is_none(), frame.unwrap_or_default());
        let request = Request::of(&frame);
        let brings = request.as_ref().is_some_and(brings_number);
        let named = if brings && line.passes("as") { Some(name(line, "a name for it")?) } else { None };
        let text = begin.strip_suffix(&line.rest()).unwrap_or(&begin).trim().to_string();
        let at = self.script.panes[place].sent.len();
        let mut reactions: Reactions = [None; EVENTS.len()];
        while line.peek() == Some("after") {
            let (event, action) = self.after(line, Some(at))?;
            reactions[event] = action;
        }
        let then = if line.passes("then") { self.deed(line, Some(at), None)? } else { None };
        let pane = &mut self.script.panes[place];
        if label.as_ref().is_some_and(|label| pane.line_labelled(label).is_some()) {
            return Err(Fault::new(line.number, "expected a label that the pane does not have yet"));
        }
        let inside = inside.map(|name| place_of(&mut pane.names, &name));
        let names = named.map(|name| place_of(&mut pane.names, &name));
        let line = line.number;
        pane.sent.push(Sent { label, awaits_bell, frame, request, inside, names, reactions, then, text, line });
        Ok(())
    }

    /// The pane's last line has come: names and labels are all there.
    fn close_pane(&mut self) -> Result<(), Fault> {
        let Some(pane) = self.script.panes.last_mut() else { return Ok(()) };
        for jump in self.jumps.drain(..) {
            let to = pane.line_labelled(&jump.label);
            let why = || format!("expected a label of pane {}, found `{}`", pane.name, jump.label);
            let to = to.ok_or_else(|| Fault::new(jump.line, why()))?;
            let action = Some(Action::GoOnAt(to));
            match (jump.sent, jump.event) {
                (Some(sent), Some(event)) => pane.sent[sent].reactions[event] = action,
                (Some(sent), None) => pane.sent[sent].then = action,
                (None, Some(event)) => pane.reactions[event] = action,
                (None, None) => {}
            }
        }
        pane.sent.iter().try_for_each(|sent| pane.has_given(sent))
    }

    fn expect(&mut self, line: &mut Line) -> Result<(), Fault> {
        if self.script.panes.is_empty() {
            let expectation = expectation(line)?;
            let last = self.script.start.last_mut();
            let last = last.ok_or_else(|| Fault::new(line.number, "expected a frame before `expect`"))?;
            last.expectations.push(expectation);
            return Ok(());
        }
        line.want("expect")?;
        let first = line.peek().and_then(|word| word.chars().next());
        if first.is_some_and(|first| first.is_ascii_digit()) {
            let number = line.word("a number")?.replace(',', "");
            let what = line.peek().filter(|what| ["situations", "steps", "histories"].contains(what));
            let what = what.ok_or_else(|| line.expected("`situations`, `steps` or `histories`"))?.to_string();
            line.word("what is counted")?;
            self.script.sizes.push(Size { line: line.number, what, number });
            return Ok(());
        }
        let verdict = claim::expected(line)?;
        let claim = self.script.claims.last_mut();
        claim.ok_or_else(|| Fault::new(line.number, "expected a claim before `expect`"))?.expected = Some(verdict);
        Ok(())
    }

    fn ticks(&mut self, line: &mut Line) -> Result<(), Fault> {
        if self.has_ticks {
            return Err(Fault::new(line.number, "expected `ticks at most N` only once"));
        }
        self.has_ticks = line.pass_all(&["ticks", "at", "most"]);
        if !self.has_ticks {
            return Err(line.expected("`ticks at most N`"));
        }
        self.script.ticks = line.number("how many ticks")?;
        Ok(())
    }

    fn rounds(&mut self, line: &mut Line) -> Result<(), Fault> {
        line.want("rounds")?;
        let at = line.clone();
        let rounds = line.number("how often the script is gone through, from 1")?;
        if rounds == 0 {
            return Err(at.expected("how often the script is gone through, from 1"));
        }
        self.open_pane(line)?.rounds = Some(rounds);
        Ok(())
    }

    fn open_pane(&mut self, line: &Line) -> Result<&mut Pane, Fault> {
        self.script.panes.last_mut().ok_or_else(|| Fault::new(line.number, "expected a `pane` before this line"))
    }

    fn line(&mut self, line: &mut Line) -> Result<(), Fault> {
        match line.peek() {
            None => Ok(()),
            Some("pane") => {
                self.close_pane()?;
                self.pane(line)
            }
            Some("ticks") => self.ticks(line),
            Some("claim") => {
                self.close_pane()?;
                let claim = claim::parse(line, &self.script.panes)?;
                if self.script.claims.len() == MOST_CLAIMS {
                    return Err(Fault::new(line.number, format!("expected at most {MOST_CLAIMS} claims")));
                }
                self.script.claims.push(claim);
                Ok(())
            }
            Some("expect") => self.expect(line),
            Some("rounds") => self.rounds(line),
            Some("after") => {
                self.open_pane(line)?;
                let (event, action) = self.after(line, None)?;
                self.open_pane(line)?.reactions[event] = action;
                Ok(())
            }
            Some(_) if self.script.panes.is_empty() => match frame_line(line)? {
                Some(frame) => {
                    let asked =
                        Asked { text: line.text.to_string(), remark: line.comment.to_string(), ..Asked::of(frame) };
                    self.script.start.push(Asked { line: line.number, ..asked });
                    Ok(())
                }
                None => Err(line.expected("a starting frame (`party ..`, `tick`, `bytes ..`) or `pane NAME party P`")),
            },
            Some(_) => self.sent(line),
        }
    }
}

/// What the script says, or the first thing that is wrong with it.
pub fn parse(text: &str) -> Result<Script, Fault> {
    let mut parser = Parser::default();
    (parser.script.title, parser.script.lead) = head(text);
    for (place, whole) in text.lines().enumerate() {
        let mut line = Line::new(place + 1, whole);
        parser.line(&mut line)?;
        line.finish()?;
    }
    parser.close_pane()?;
    if parser.script.panes.is_empty() {
        return Err(Fault::new(0, "expected a pane (`pane NAME party P`), the text ends"));
    }
    Ok(parser.script)
}

impl Script {
    /// The same with some panes only, and other ticks; claims about a pane that is left out are left out.
    pub fn narrowed(&self, keep: &[usize], ticks: u32) -> Script {
        let mut script = self.clone();
        script.ticks = ticks;
        script.panes = keep.iter().map(|&place| self.panes[place].clone()).collect();
        script.claims = self.claims.iter().filter_map(|claim| claim.narrowed(keep)).collect();
        script
    }
}
