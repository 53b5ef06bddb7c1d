//! `tray try`: frames typed one after the other, answered at once; undo, redo, save, draw.

use crate::draw;
use crate::history::History;
use crate::line::{Fault, Line};
use crate::oracle::Matcher;
use crate::prose::state_lines;
use crate::run::step_words;
use crate::tell::tell;
use crate::text::{expectation, frame_line, Asked};
use std::io::{BufRead, Write};

const HELP: &str = include_str!("help/try-commands.txt");

/// The frames so far, and those that were undone.
#[derive(Default)]
pub struct Typed {
    frames: Vec<Asked>,
    undone: Vec<Asked>,
    matcher: Matcher,
}

/// What a line leads to.
pub enum Reply {
    Say(String),
    Wrong(String),
    Quit,
}

fn cannot(file: &str, error: std::io::Error) -> Reply {
    Reply::Wrong(format!("{file}: {error}"))
}

impl Typed {
    pub fn new(frames: Vec<Asked>) -> Typed {
        Typed { frames, ..Typed::default() }
    }

    fn history(&self) -> History {
        History::of(self.frames.iter().cloned())
    }

    /// The last frame with its records and the tables after it.
    pub fn last(&mut self) -> String {
        let history = self.history();
        match history.steps.len() {
            0 => "the space is empty\n".to_string(),
            steps => step_words(&history, steps - 1, true, &mut self.matcher),
        }
    }

    fn state(&mut self) -> String {
        let history = self.history();
        let tables = history.last();
        let lines = state_lines(tables, &mut self.matcher);
        format!("clock {}\n", tables.clock) + &lines.iter().map(|line| format!("| {line}\n")).collect::<String>()
    }

    fn tell(&mut self) -> String {
        let history = self.history();
        (0..history.steps.len()).map(|place| step_words(&history, place, false, &mut self.matcher)).collect()
    }

    fn undo(&mut self) -> Reply {
        match self.frames.pop() {
            None => Reply::Wrong("expected a frame to undo, there is none".to_string()),
            Some(asked) => {
                let said = format!("undone: {}\n", asked.text);
                self.undone.push(asked);
                Reply::Say(said + &self.state())
            }
        }
    }

    fn redo(&mut self) -> Reply {
        match self.undone.pop() {
            None => Reply::Wrong("expected a frame to redo, there is none".to_string()),
            Some(asked) => {
                self.frames.push(asked);
                Reply::Say(self.last())
            }
        }
    }

    /// The frames with their remarks and expectations, as a text.
    pub fn text(&self) -> String {
        let mut text = String::new();
        for asked in &self.frames {
            let remark = if asked.remark.is_empty() { String::new() } else { format!("  # {}", asked.remark) };
            text += &format!("{}{remark}\n", asked.text);
            text.extend(asked.expectations.iter().map(|expected| format!("expect {}\n", expected.text)));
        }
        text
    }

    fn save(&self, file: &str) -> Reply {
        match std::fs::write(file, self.text()) {
            Ok(()) => Reply::Say(format!("{} frames saved in {file}\n", self.frames.len())),
            Err(error) => cannot(file, error),
        }
    }

    fn draw(&self, file: &str) -> Reply {
        let drawn = draw::for_file(file, &self.history(), "try", draw::default_width());
        match drawn.map(|drawn| std::fs::write(file, drawn)) {
            Ok(Ok(())) => Reply::Say(format!("drawn in {file}\n")),
            Ok(Err(error)) => cannot(file, error),
            Err(why) => Reply::Wrong(why),
        }
    }

    fn expect(&mut self, line: &mut Line) -> Result<Reply, Fault> {
        let expectation = expectation(line)?;
        line.finish()?;
        let Some(last) = self.frames.last_mut() else {
            return Ok(Reply::Wrong("expected a frame before `expect`".to_string()));
        };
        last.expectations.push(expectation);
        let unmet = self.history().steps.last().is_some_and(|step| !step.unmet().is_empty());
        Ok(Reply::Say(if unmet { "not as expected\n" } else { "as expected\n" }.to_string()))
    }

    fn file<'a>(line: &mut Line<'a>) -> Result<&'a str, Fault> {
        line.word("a command")?;
        let file = line.word("a file's name")?;
        line.finish()?;
        Ok(file)
    }

    fn frame(&mut self, line: &mut Line) -> Result<Reply, Fault> {
        let Some(frame) = frame_line(line)? else {
            return Err(line.expected("a frame (`party ..`, `tick`) or a command (`help` has them)"));
        };
        line.finish()?;
        let asked = Asked { text: line.text.to_string(), remark: line.comment.to_string(), ..Asked::of(frame) };
        self.frames.push(asked);
        self.undone.clear();
        Ok(Reply::Say(self.last()))
    }

    fn answer(&mut self, line: &mut Line) -> Result<Reply, Fault> {
        let alone = line.text.split_whitespace().count() == 1;
        Ok(match line.peek() {
            None => Reply::Say(String::new()),
            Some("undo") if alone => self.undo(),
            Some("redo") if alone => self.redo(),
            Some("state") if alone => Reply::Say(self.state()),
            Some("history") if alone => Reply::Say(self.tell()),
            Some("help") if alone => Reply::Say(HELP.to_string()),
            Some("quit") if alone => Reply::Quit,
            Some("save") => self.save(Typed::file(line)?),
            Some("draw") => self.draw(Typed::file(line)?),
            Some("expect") => self.expect(line)?,
            Some(_) => self.frame(line)?,
        })
    }

    pub fn line(&mut self, text: &str) -> Reply {
        let mut line = Line::new(1, text);
        self.answer(&mut line).unwrap_or_else(|fault| Reply::Wrong(fault.why))
    }
}

/// Reads lines until the end or `quit`. What is wrong with a line goes to standard error, and the next one is read.
pub fn talk(typed: &mut Typed, input: impl BufRead, output: &mut impl Write, sign: &str) -> std::io::Result<()> {
    write!(output, "{sign}")?;
    output.flush()?;
    for line in input.lines() {
        match typed.line(&line?) {
            Reply::Say(text) => write!(output, "{text}")?,
            Reply::Wrong(why) => tell(&why),
            Reply::Quit => return Ok(()),
        }
        write!(output, "{sign}")?;
        output.flush()?;
    }
    Ok(())
}
