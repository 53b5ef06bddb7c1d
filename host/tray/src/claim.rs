//! Claims about all histories of some panes: their forms, as text.

use crate::frame::template_text;
use crate::line::{Fault, Line};
use crate::panes::Pane;
use crate::record::{kind_named, kind_of, REFUSED};
use crate::words::Template;

/// Where entries are counted.
#[derive(Clone, Copy, PartialEq, Eq, Debug)]
pub enum Scope {
    /// Where nothing more can happen, all ticks used.
    End,
    /// Wherever every pane has stopped.
    Stopped,
    Always,
}

#[derive(Clone, Copy, PartialEq, Eq, Debug)]
pub enum Quantity {
    Exactly(usize),
    AtMost(usize),
    AtLeast(usize),
}

impl Quantity {
    pub fn holds(self, count: usize) -> bool {
        match self {
            Quantity::Exactly(n) => count == n,
            Quantity::AtMost(n) => count <= n,
            Quantity::AtLeast(n) => count >= n,
        }
    }
}

#[derive(Clone, Copy, PartialEq, Eq, Debug)]
pub enum Sharing {
    Hold,
    Find,
    Take,
}

/// Panes and lines by their places in the script.
#[derive(Clone, PartialEq, Eq, Debug)]
pub enum Form {
    Never {
        pane: usize,
        kind: u8,
        number: Option<u32>,
        at: Option<usize>,
    },
    Always {
        pane: usize,
        kind: u8,
        number: Option<u32>,
        at: Option<usize>,
    },
    Count {
        scope: Scope,
        quantity: Quantity,
        committed: bool,
        template: Template,
    },
    NotBoth {
        panes: [usize; 2],
        sharing: Sharing,
    },
    /// No pane of these waits for ever.
    NoEndlessWait {
        panes: Vec<usize>,
    },
    Turns {
        panes: [usize; 2],
        at: [usize; 2],
    },
    Ticks {
        pane: usize,
        most: u32,
        from: usize,
        to: usize,
    },
    PutBack {
        pane: usize,
        unless_ended: bool,
    },
    NothingOnlyIf {
        pane: usize,
        available: bool,
    },
}

#[derive(Clone, Copy, PartialEq, Eq, Debug)]
pub enum Verdict {
    Kept,
    Refuted,
    /// Not all was looked at.
    Open,
}

/// A verdict that the script expects, and of a refuted claim the frames of its shortest history.
#[derive(Clone, PartialEq, Eq, Debug)]
pub struct Expected {
    pub line: usize,
    pub verdict: Verdict,
    pub frames: Option<usize>,
}

#[derive(Clone, Debug)]
pub struct Claim {
    pub form: Form,
    /// As written.
    pub text: String,
    /// The comment behind it.
    pub remark: String,
    pub line: usize,
    pub expected: Option<Expected>,
}

pub fn expected(line: &mut Line) -> Result<Expected, Fault> {
    let verdict = match line.peek() {
        Some("kept") => Verdict::Kept,
        Some("refuted") => Verdict::Refuted,
        Some("open") => Verdict::Open,
        _ => return Err(line.expected("`kept`, `refuted [in N frames]`, `open`, or a number of situations")),
    };
    line.word("a verdict")?;
    let mut frames = None;
    if line.passes("in") {
        frames = Some(line.number("a number of frames")?);
        line.want("frames")?;
    }
    Ok(Expected { line: line.number, verdict, frames })
}

/// What a claim's words are read with.
struct Reader<'a, 'b> {
    line: &'b mut Line<'a>,
    panes: &'b [Pane],
}

impl Reader<'_, '_> {
    fn pane(&mut self) -> Result<usize, Fault> {
        let place = self.line.peek().and_then(|word| self.panes.iter().position(|pane| pane.name == word));
        let names: Vec<&str> = self.panes.iter().map(|pane| pane.name.as_str()).collect();
        let place = place.ok_or_else(|| self.line.expected(&format!("a pane ({})", names.join(", "))))?;
        self.line.word("a pane")?;
        Ok(place)
    }

    fn label(&mut self, pane: usize) -> Result<usize, Fault> {
        let place = self.line.peek().and_then(|word| self.panes[pane].line_labelled(word));
        let place = place.ok_or_else(|| self.line.expected(&format!("a label of pane {}", self.panes[pane].name)))?;
        self.line.word("a label")?;
        Ok(place)
    }

    /// `ANSWER [NUMBER] [at LABEL]`
    fn answer(&mut self, pane: usize) -> Result<(u8, Option<u32>, Option<usize>), Fault> {
        let kind = self.line.peek().and_then(kind_named);
        let kind = kind.ok_or_else(|| self.line.expected("an answer (found, nothing, exception, refused, ..)"))?;
        self.line.word("an answer")?;
        let number = if kind.number == REFUSED { self.line.number_if_any() } else { None };
        let at = if self.line.passes("at") { Some(self.label(pane)?) } else { None };
        Ok((kind.number, number, at))
    }

    fn quantity(&mut self) -> Result<Quantity, Fault> {
        let line = &mut *self.line;
        if line.passes("some") {
            return Ok(Quantity::AtLeast(1));
        }
        if line.passes("no") {
            return Ok(Quantity::Exactly(0));
        }
        if line.passes("exactly") {
            return Ok(Quantity::Exactly(line.number("a number of entries")?));
        }
        if line.pass_all(&["at", "most"]) {
            return Ok(Quantity::AtMost(line.number("a number of entries")?));
        }
        if line.pass_all(&["at", "least"]) {
            return Ok(Quantity::AtLeast(line.number("a number of entries")?));
        }
        Err(line.expected("how many (`some`, `no`, `exactly N`, `at most N`, `at least N`)"))
    }

    /// `QUANTITY committed|stored entry matches TEMPLATE`
    fn count(&mut self, scope: Scope) -> Result<Form, Fault> {
        let quantity = self.quantity()?;
        let committed = self.line.passes("committed");
        if !committed {
            self.line.passes("stored").then_some(()).ok_or_else(|| self.line.expected("`committed` or `stored`"))?;
        }
        let _ = self.line.passes("entry") || self.line.passes("entries");
        let _ = self.line.passes("matches") || self.line.passes("match");
        Ok(Form::Count { scope, quantity, committed, template: self.line.template()? })
    }

    /// `what PANE took is there again after its abort [unless its lease has ended]`
    fn put_back(&mut self) -> Result<Form, Fault> {
        let pane = self.pane()?;
        for word in ["took", "is", "there", "again", "after", "its", "abort"] {
            self.line.want(word)?;
        }
        let unless_ended = self.line.pass_all(&["unless", "its", "lease", "has", "ended"]);
        Ok(Form::PutBack { pane, unless_ended })
    }

    /// `and PANE never both find the same entry`, `and PANE take turns at LABEL`
    fn two(&mut self, first: usize) -> Result<Form, Fault> {
        let panes = [first, self.pane()?];
        if self.line.pass_all(&["take", "turns", "at"]) {
            let at = self.label(first)?;
            let label = self.panes[first].sent[at].label.clone().unwrap_or_default();
            let other = self.panes[panes[1]].line_labelled(&label);
            let why = format!("expected a label that pane {} has too, found `{label}`", self.panes[panes[1]].name);
            return Ok(Form::Turns { panes, at: [at, other.ok_or_else(|| Fault::new(self.line.number, why))?] });
        }
        if !self.line.pass_all(&["never", "both"]) {
            return Err(self.line.expected("`never both hold|find|take the same entry` or `take turns at LABEL`"));
        }
        let sharing = match self.line.word("`hold`, `find` or `take`")? {
            "hold" => Sharing::Hold,
            "find" => Sharing::Find,
            "take" => Sharing::Take,
            other => {
                return Err(Fault::new(self.line.number, format!("expected `hold`, `find` or `take`, found `{other}`")))
            }
        };
        for word in ["the", "same", "entry"] {
            self.line.want(word)?;
        }
        Ok(Form::NotBoth { panes, sharing })
    }

    fn of_pane(&mut self, pane: usize) -> Result<Form, Fault> {
        let line = &mut *self.line;
        if line.pass_all(&["never", "gets"]) {
            let (kind, number, at) = self.answer(pane)?;
            return Ok(Form::Never { pane, kind, number, at });
        }
        if line.pass_all(&["always", "gets"]) {
            let (kind, number, at) = self.answer(pane)?;
            return Ok(Form::Always { pane, kind, number, at });
        }
        if line.pass_all(&["never", "waits", "for", "ever"]) {
            return Ok(Form::NoEndlessWait { panes: vec![pane] });
        }
        if line.pass_all(&["gets", "nothing", "only", "if", "no"]) {
            let available = line.passes("available");
            if !available {
                line.want("stored")?;
            }
            line.want("entry")?;
            line.want("matches")?;
            return Ok(Form::NothingOnlyIf { pane, available });
        }
        if line.pass_all(&["needs", "at", "most"]) {
            let most = line.number("a number of ticks")?;
            let _ = line.passes("ticks") || line.passes("tick");
            line.want("from")?;
            let from = self.label(pane)?;
            self.line.want("to")?;
            return Ok(Form::Ticks { pane, most, from, to: self.label(pane)? });
        }
        if line.passes("and") {
            return self.two(pane);
        }
        Err(line.expected("what is claimed of the pane (`tray explore --help` has the forms)"))
    }

    fn form(&mut self) -> Result<Form, Fault> {
        let line = &mut *self.line;
        if line.pass_all(&["nobody", "waits", "for", "ever"]) {
            return Ok(Form::NoEndlessWait { panes: (0..self.panes.len()).collect() });
        }
        if line.pass_all(&["at", "the", "end"]) {
            return self.count(Scope::End);
        }
        if line.pass_all(&["when", "all", "have", "stopped"]) {
            return self.count(Scope::Stopped);
        }
        if line.passes("always") {
            return self.count(Scope::Always);
        }
        if line.passes("what") {
            return self.put_back();
        }
        let pane = self.pane()?;
        self.of_pane(pane)
    }
}

pub fn parse(line: &mut Line, panes: &[Pane]) -> Result<Claim, Fault> {
    line.want("claim")?;
    let (text, remark, number) = (line.rest(), line.comment.to_string(), line.number);
    let form = Reader { line, panes }.form()?;
    Ok(Claim { form, text, remark, line: number, expected: None })
}

impl Claim {
    /// The panes that it names; none if it speaks of all.
    pub fn panes(&self) -> Vec<usize> {
        match &self.form {
            Form::Never { pane, .. }
            | Form::Always { pane, .. }
            | Form::Ticks { pane, .. }
            | Form::PutBack { pane, .. }
            | Form::NothingOnlyIf { pane, .. } => vec![*pane],
            Form::NotBoth { panes, .. } | Form::Turns { panes, .. } => panes.to_vec(),
            Form::NoEndlessWait { panes } if panes.len() == 1 => panes.clone(),
            Form::NoEndlessWait { .. } | Form::Count { .. } => Vec::new(),
        }
    }

    /// The same claim where only these panes are left, if it still says something.
    pub fn narrowed(&self, keep: &[usize]) -> Option<Claim> {
        let to = |pane: &usize| keep.iter().position(|kept| kept == pane);
        let mut claim = self.clone();
        match &mut claim.form {
            Form::Never { pane, .. }
            | Form::Always { pane, .. }
            | Form::Ticks { pane, .. }
            | Form::PutBack { pane, .. }
            | Form::NothingOnlyIf { pane, .. } => *pane = to(pane)?,
            Form::NotBoth { panes, .. } | Form::Turns { panes, .. } => *panes = [to(&panes[0])?, to(&panes[1])?],
            Form::NoEndlessWait { panes } => {
                *panes = panes.iter().filter_map(to).collect();
                if panes.is_empty() {
                    return None;
                }
            }
            Form::Count { .. } => {}
        }
        Some(claim)
    }

    /// What the claim fails with, under the last column of its shortest history; `count` is of the entries it counts.
    pub fn failing(&self, panes: &[Pane], count: usize) -> String {
        let name = |pane: &usize| panes[*pane].name.clone();
        let kind = |kind: &u8| kind_of(*kind).map_or("", |kind| kind.name);
        match &self.form {
            Form::Never { pane, kind: k, .. } => format!("{} gets {}", name(pane), kind(k)),
            Form::Always { pane, kind: k, .. } => format!("{} has not got {}", name(pane), kind(k)),
            Form::Count { committed, template, .. } => {
                let what = if *committed { "committed" } else { "stored" };
                format!("{count} {what} match {}", template_text(template))
            }
            Form::NotBoth { panes, .. } => format!("{} and {} have the same entry", name(&panes[0]), name(&panes[1])),
            Form::NoEndlessWait { .. } => "a pane waits for ever".to_string(),
            Form::Turns { .. } => "twice in a row".to_string(),
            Form::Ticks { pane, .. } => format!("one tick too many for {}", name(pane)),
            Form::PutBack { .. } => "what was taken is not put back".to_string(),
            Form::NothingOnlyIf { pane, .. } => format!("{} gets nothing all the same", name(pane)),
        }
    }
}
