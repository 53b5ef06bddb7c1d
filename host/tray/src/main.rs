//! The program `tray`: its verbs, its statuses, and what it says when asked for help.

use std::io::{IsTerminal, Read, Write};
use std::process::ExitCode;
use tray::explore::analysis::analyse;
use tray::explore::{report, Bounds, Explored};
use tray::face;
use tray::history::Outcome;
use tray::line::Fault;
use tray::needs::Needs;
use tray::order;
use tray::sittings::{self, Report, Sitting};
use tray::tell::tell;
use tray::trial::{self, Trial};
use tray::typed::{self, Typed};
use tray::waiting::{self, Account};
use tray::{bytes, draw, history, panes, run, text};

/// What the program ends with.
#[derive(Clone, Copy, PartialEq, Eq)]
enum Status {
    Done = 0,
    CannotReadOrWrite = 1,
    BadTextOrUsage = 2,
    TrayRefused = 3,
    NotAsExpected = 4,
    NotAsProved = 5,
}

/// Why nothing was done.
struct Failed {
    status: Status,
    why: String,
}

impl Failed {
    fn usage(why: impl Into<String>) -> Failed {
        Failed { status: Status::BadTextOrUsage, why: why.into() }
    }

    fn text(file: &str, fault: &Fault) -> Failed {
        Failed::usage(fault.in_file(file))
    }

    fn io(file: &str, error: std::io::Error) -> Failed {
        Failed { status: Status::CannotReadOrWrite, why: format!("{file}: {error}") }
    }
}

type Ended = Result<Status, Failed>;

struct Verb {
    name: &'static str,
    usage: &'static str,
    /// Options alone, and those with a value behind them.
    flags: &'static [&'static str],
    values: &'static [&'static str],
    about: &'static str,
    help: &'static str,
    act: fn(&Arguments) -> Ended,
}

const VERBS: &[Verb] = &[
    Verb {
        name: "run",
        usage: "tray run FILE [--state | --raw]",
        flags: &["--state", "--raw"],
        values: &[],
        about: "a history in words, frame by frame",
        help: include_str!("help/run.txt"),
        act: run_verb,
    },
    Verb {
        name: "waiting",
        usage: "tray waiting FILE [--after N]",
        flags: &[],
        values: &["--after"],
        about: "who waits after a history, and why",
        help: include_str!("help/waiting.txt"),
        act: waiting_verb,
    },
    Verb {
        name: "bounds",
        usage: "tray bounds FILE",
        flags: &[],
        values: &[],
        about: "how big an answers area a tray wants, and what its run needs in fact",
        help: include_str!("help/bounds.txt"),
        act: bounds_verb,
    },
    Verb {
        name: "draw",
        usage: "tray draw FILE -o FILE.html|FILE.svg [--width N]",
        flags: &[],
        values: &["-o", "--width"],
        about: "a history as a page or a picture",
        help: include_str!("help/draw.txt"),
        act: draw_verb,
    },
    Verb {
        name: "explore",
        usage: "tray explore PANES [-o FILE.html] [--claim N] [--ticks N] [--situations N] [--memory MB]",
        flags: &[],
        values: &["-o", "--claim", "--ticks", "--situations", "--memory"],
        about: "panes in every interleaving, and what becomes of claims",
        help: include_str!("help/explore.txt"),
        act: explore_verb,
    },
    Verb {
        name: "try",
        usage: "tray try [FILE]",
        flags: &[],
        values: &[],
        about: "type frames, see answers and tables at once",
        help: include_str!("help/try.txt"),
        act: try_verb,
    },
    Verb {
        name: "place",
        usage: "tray place PLACE [to PLACE] [-o FILE.svg]",
        flags: &[],
        values: &["-o"],
        about: "a place of the clock face as time and number, and its mirror",
        help: include_str!("help/place.txt"),
        act: place_verb,
    },
    Verb {
        name: "order",
        usage: "tray order FILE [--raw | --bytes]",
        flags: &["--raw", "--bytes"],
        values: &[],
        about: "an order that accounts for the transactions of an export",
        help: include_str!("help/order.txt"),
        act: order_verb,
    },
    Verb {
        name: "trial",
        usage: "tray trial FILE [--words | --history N | --draw N -o FILE.html|FILE.svg]",
        flags: &["--words"],
        values: &["--history", "--draw", "-o"],
        about: "panes that go round with leases, timeouts and holds: what they commit, and what to change",
        help: include_str!("help/trial.txt"),
        act: trial_verb,
    },
    Verb {
        name: "sittings",
        usage: "tray sittings FILE.. [--words | --show NAME]",
        flags: &["--words"],
        values: &["--show"],
        about: "how long each party waited, over the trays of up to 64 sittings",
        help: include_str!("help/sittings.txt"),
        act: sittings_verb,
    },
    Verb {
        name: "assemble",
        usage: "tray assemble FILE",
        flags: &[],
        values: &[],
        about: "the tray that a text stands for, as bytes",
        help: include_str!("help/assemble.txt"),
        act: assemble_verb,
    },
    Verb {
        name: "show",
        usage: "tray show TRAY",
        flags: &[],
        values: &[],
        about: "a tray, given as bytes, as text",
        help: include_str!("help/show.txt"),
        act: show_verb,
    },
];

/// What follows the verb: options with their values, and the rest.
struct Arguments {
    verb: &'static Verb,
    flags: Vec<String>,
    values: Vec<(String, String)>,
    files: Vec<String>,
}

impl Arguments {
    fn parse(verb: &'static Verb, words: &[String]) -> Result<Arguments, Failed> {
        let mut arguments = Arguments { verb, flags: Vec::new(), values: Vec::new(), files: Vec::new() };
        let mut words = words.iter();
        while let Some(word) = words.next() {
            if arguments.has(word) {
                return Err(Failed::usage(format!("expected {word} only once")));
            }
            if verb.values.contains(&word.as_str()) {
                let value = words.next().ok_or_else(|| Failed::usage(format!("expected a value behind {word}")))?;
                arguments.values.push((word.clone(), value.clone()));
            } else if verb.flags.contains(&word.as_str()) {
                arguments.flags.push(word.clone());
            } else if word.starts_with('-') && word != "-" {
                return Err(Failed::usage(format!("expected {}, found `{word}`", verb.usage)));
            } else {
                arguments.files.push(word.clone());
            }
        }
        Ok(arguments)
    }

    fn has(&self, option: &str) -> bool {
        self.flag(option) || self.value(option).is_some()
    }

    fn flag(&self, name: &str) -> bool {
        self.flags.iter().any(|flag| flag == name)
    }

    fn value(&self, name: &str) -> Option<&str> {
        self.values.iter().find(|(option, _)| option == name).map(|(_, value)| value.as_str())
    }

    fn number<N: std::str::FromStr>(&self, name: &str) -> Result<Option<N>, Failed> {
        let Some(value) = self.value(name) else { return Ok(None) };
        let number =
            value.parse().map_err(|_| Failed::usage(format!("expected a number behind {name}, found `{value}`")))?;
        Ok(Some(number))
    }

    /// The one file that the verb works on.
    fn file(&self) -> Result<&str, Failed> {
        match &self.files[..] {
            [file] => Ok(file),
            _ => Err(Failed::usage(format!("expected {}", self.verb.usage))),
        }
    }

    fn bytes(&self) -> Result<Vec<u8>, Failed> {
        read(self.file()?)
    }

    fn text(&self) -> Result<String, Failed> {
        self.text_or("`tray show` makes one of a tray's bytes")
    }

    /// The file's text; for bytes, what is to be done with them.
    fn text_or(&self, bytes: &str) -> Result<String, Failed> {
        let file = self.file()?;
        let why = || Failed::usage(format!("{file}: expected a text in UTF-8; {bytes}"));
        text::of_bytes(&self.bytes()?).map(str::to_string).ok_or_else(why)
    }

    /// The file's text, its tray, and the file's name.
    fn tray(&self) -> Result<(text::Text, Vec<u8>), Failed> {
        let file = self.file()?;
        let parsed = text::parse(&self.text()?).map_err(|fault| Failed::text(file, &fault))?;
        let tray = parsed.tray().map_err(|fault| Failed::text(file, &fault))?;
        Ok((parsed, tray))
    }
}

/// What a file has, or standard input for `-`.
fn read(file: &str) -> Result<Vec<u8>, Failed> {
    let mut bytes = Vec::new();
    let read = match file {
        "-" => std::io::stdin().read_to_end(&mut bytes).map(|_| bytes),
        _ => std::fs::read(file),
    };
    read.map_err(|error| Failed::io(file, error))
}

fn print(bytes: &[u8]) -> Result<(), Failed> {
    let mut out = std::io::stdout().lock();
    out.write_all(bytes).and_then(|()| out.flush()).map_err(|error| Failed::io("standard output", error))
}

fn complain(why: &str) {
    tell(&format!("tray: {why}"));
}

fn run_verb(arguments: &Arguments) -> Ended {
    if arguments.flag("--raw") && arguments.flag("--state") {
        return Err(Failed::usage("expected --state or --raw, found both"));
    }
    let (text, tray) = arguments.tray()?;
    let outcome = history::run(&text, &tray);
    let printed = match arguments.flag("--raw") {
        true => run::raw(&outcome.area, outcome.done),
        false => run::words(&outcome, arguments.flag("--state")),
    };
    print(printed.as_bytes())?;
    let failures = run::failures(&outcome.history);
    for failure in &failures {
        complain(&Fault::new(failure.line, &failure.why).in_file(arguments.file()?));
    }
    Ok(match status_of(arguments, &outcome)? {
        Status::Done if !failures.is_empty() => Status::NotAsExpected,
        status => status,
    })
}

/// The status of a history that has been told; what the proofs exclude is told, too.
fn status_of(arguments: &Arguments, outcome: &Outcome) -> Ended {
    status_with(arguments, outcome, Account::of(&outcome.history).faults())
}

/// The same, where these faults are what the proofs exclude.
fn status_with(arguments: &Arguments, outcome: &Outcome, faults: Vec<String>) -> Ended {
    for fault in &faults {
        complain(&format!("{}: {fault}: the archive is damaged, or this tool is wrong", arguments.file()?));
    }
    Ok(match outcome.done.number {
        _ if !faults.is_empty() => Status::NotAsProved,
        0 => Status::Done,
        _ => Status::TrayRefused,
    })
}

fn waiting_verb(arguments: &Arguments) -> Ended {
    let after = arguments.number::<usize>("--after")?;
    let (text, tray) = arguments.tray()?;
    let mut outcome = history::run(&text, &tray);
    let done = outcome.done.frames;
    if let Some(after) = after.filter(|_| !outcome.is_refused()) {
        if after > done {
            let why = format!("expected a number of frames from 0 to {done} behind --after, found {after}");
            return Err(Failed::usage(format!("{}: {why}", arguments.file()?)));
        }
        outcome.history.steps.truncate(after);
    }
    print(waiting::words(&outcome).as_bytes())?;
    status_of(arguments, &outcome)
}

fn bounds_verb(arguments: &Arguments) -> Ended {
    let (text, tray) = arguments.tray()?;
    let needs = Needs::of(&text, &tray);
    print(needs.words().as_bytes())?;
    status_with(arguments, &needs.outcome, needs.faults())
}

fn write(file: &str, bytes: &[u8]) -> Result<(), Failed> {
    std::fs::write(file, bytes).map_err(|error| Failed::io(file, error))
}

fn draw_verb(arguments: &Arguments) -> Ended {
    let file = arguments.file()?;
    let (text, tray) = arguments.tray()?;
    let to = arguments.value("-o").ok_or_else(|| Failed::usage(format!("expected {}", arguments.verb.usage)))?;
    let width = arguments.number::<u32>("--width")?.map_or(draw::default_width(), |width| f64::from(width.max(300)));
    let outcome = history::run(&text, &tray);
    if outcome.is_refused() {
        let why = format!("{file}: the tray is {}", tray::prose::refusal_words(outcome.done.number));
        return Err(Failed { status: Status::TrayRefused, why });
    }
    let drawn = draw::for_file(to, &outcome.history, &file_name(file), width).map_err(Failed::usage)?;
    write(to, drawn.as_bytes())?;
    status_of(arguments, &outcome)
}

/// The file's name without folders and ending.
fn file_name(file: &str) -> String {
    let stem = std::path::Path::new(file).file_stem();
    stem.map_or(file.to_string(), |stem| stem.to_string_lossy().into_owned())
}

fn bounds(arguments: &Arguments) -> Result<Bounds, Failed> {
    let mut bounds = Bounds::default();
    if let Some(situations) = arguments.number("--situations")? {
        bounds.situations = situations;
    }
    if let Some(memory) = arguments.number::<usize>("--memory")? {
        bounds.memory = memory.saturating_mul(1 << 20);
    }
    Ok(bounds)
}

/// The script, as the options change it.
fn script(arguments: &Arguments) -> Result<panes::Script, Failed> {
    let file = arguments.file()?;
    let mut script = panes::parse(&arguments.text()?).map_err(|fault| Failed::text(file, &fault))?;
    if let Some(ticks) = arguments.number("--ticks")? {
        script.ticks = ticks;
    }
    if let Some(claim) = arguments.number::<usize>("--claim")? {
        let claims = script.claims.len();
        let place = claim.checked_sub(1).filter(|&place| place < claims);
        let place = place
            .ok_or_else(|| Failed::usage(format!("{file}: expected a claim from 1 to {claims}, found {claim}")))?;
        script.claims = vec![script.claims.swap_remove(place)];
    }
    Ok(script)
}

/// The file to write, if there is one; it must end so.
fn file_ending<'a>(arguments: &'a Arguments, ending: &str) -> Result<Option<&'a str>, Failed> {
    match arguments.value("-o") {
        Some(to) if !to.ends_with(ending) => {
            Err(Failed::usage(format!("expected a file that ends with {ending}, found `{to}`")))
        }
        to => Ok(to),
    }
}

/// The file for the report. What cannot be written is told before a long run, not after it.
fn report_file(arguments: &Arguments) -> Result<Option<&str>, Failed> {
    let Some(to) = file_ending(arguments, ".html")? else { return Ok(None) };
    let opened = std::fs::OpenOptions::new().append(true).create(true).open(to);
    opened.map(|_| Some(to)).map_err(|error| Failed::io(to, error))
}

fn tell_speed(explored: &Explored) {
    let (steps, seconds) = (explored.store.edges.len(), explored.elapsed.as_secs_f64());
    let memory = report::peak_memory().map_or(String::new(), |memory| format!(", {memory} MB at most"));
    tell(&format!("{steps} steps in {seconds:.2} s, {:.0} a second{memory}", steps as f64 / seconds));
}

fn explore_verb(arguments: &Arguments) -> Ended {
    let (script, bounds) = (script(arguments)?, bounds(arguments)?);
    let to = report_file(arguments)?;
    let analysis = analyse(&script, bounds);
    if let Some(to) = to {
        write(to, draw::report::report(&script, &analysis, bounds).as_bytes())?;
    }
    print(report::words(&script, &analysis).as_bytes())?;
    tell_speed(&analysis.explored);
    let failures = report::failures(&script, &analysis);
    for (line, why) in &failures {
        complain(&Fault::new(*line, why).in_file(arguments.file()?));
    }
    Ok(if failures.is_empty() { Status::Done } else { Status::NotAsExpected })
}

fn try_verb(arguments: &Arguments) -> Ended {
    let frames = match arguments.files.is_empty() {
        true => Vec::new(),
        false => arguments.tray()?.0.frames().cloned().collect(),
    };
    let mut typed = Typed::new(frames);
    let stdin = std::io::stdin();
    let sign = if stdin.is_terminal() { "> " } else { "" };
    if !arguments.files.is_empty() {
        print(typed.last().as_bytes())?;
    }
    let talked = typed::talk(&mut typed, stdin.lock(), &mut std::io::stdout().lock(), sign);
    talked.map_err(|error| Failed::io("standard input or output", error))?;
    Ok(Status::Done)
}

fn place_verb(arguments: &Arguments) -> Ended {
    if arguments.files.is_empty() {
        return Err(Failed::usage(format!("expected {}", arguments.verb.usage)));
    }
    let asked = face::Mirrored::parse(&arguments.files.join(" ")).map_err(|fault| Failed::usage(fault.why))?;
    if let Some(to) = file_ending(arguments, ".svg")? {
        write(to, draw::faces::svg(&asked).as_bytes())?;
    }
    print(asked.words().as_bytes())?;
    Ok(Status::Done)
}

fn order_verb(arguments: &Arguments) -> Ended {
    if arguments.flag("--raw") && arguments.flag("--bytes") {
        return Err(Failed::usage("expected --raw or --bytes, found both"));
    }
    let file = arguments.file()?;
    let text = arguments.text_or("`study_order` reads the bytes of an export")?;
    let export = order::parse(&text).map_err(|fault| Failed::text(file, &fault))?;
    if arguments.flag("--bytes") {
        print(&export.bytes())?;
        return Ok(Status::Done);
    }
    let found = export.find();
    let fault = order::tell::fault(&export, &found);
    let told = match arguments.flag("--raw") || fault.is_some() {
        true => order::tell::raw(&found),
        false => order::tell::words(&export, &found),
    };
    print(told.as_bytes())?;
    if let Some(fault) = fault {
        complain(&format!("{file}: {fault}: the archive is damaged, or this tool is wrong"));
        return Ok(Status::NotAsProved);
    }
    Ok(if matches!(found, order::Found::Refused(_)) { Status::TrayRefused } else { Status::Done })
}

fn trial_verb(arguments: &Arguments) -> Ended {
    let file = arguments.file()?;
    let options = ["--words", "--history", "--draw"].iter().filter(|option| arguments.has(option)).count();
    if options > 1 || arguments.has("--draw") != arguments.has("-o") {
        return Err(Failed::usage(format!("expected {}", arguments.verb.usage)));
    }
    let asked = trial::parse::parse(&arguments.text()?).map_err(|fault| Failed::text(file, &fault))?;
    let rounds = arguments.number::<u32>("--history")?.or(arguments.number("--draw")?);
    match (rounds, asked.range) {
        _ if arguments.flag("--words") => {
            let lines: String = trial::tell::setups(&asked).iter().map(|(_, it)| trial::tell::words_line(it)).collect();
            print(lines.as_bytes())?;
            Ok(Status::Done)
        }
        (Some(_), Some(_)) => {
            Err(Failed::usage(format!("{file}: expected a setup without a range, to show its rounds")))
        }
        (Some(rounds), None) => trial_rounds(arguments, asked.setup, rounds),
        (None, None) => match Trial::of(asked.setup.clone()) {
            Ok(trial) => {
                print(trial::tell::one(&trial).as_bytes())?;
                trial_status(arguments, [&trial])
            }
            Err(number) => trial_refused(&asked.setup, number),
        },
        (None, Some(range)) => trial_sweep(arguments, &asked, &range),
    }
}

fn trial_refused(setup: &trial::Setup, number: u64) -> Ended {
    print(trial::tell::refused(setup, number).as_bytes())?;
    Ok(Status::TrayRefused)
}

/// That of the trials that were told; what the proofs exclude is told, too.
fn trial_status<'a>(arguments: &Arguments, trials: impl IntoIterator<Item = &'a Trial>) -> Ended {
    match trials.into_iter().find_map(Trial::fault) {
        Some(fault) => {
            complain(&format!("{}: {fault}: the archive is damaged, or this tool is wrong", arguments.file()?));
            Ok(Status::NotAsProved)
        }
        None => Ok(Status::Done),
    }
}

fn trial_sweep(arguments: &Arguments, asked: &trial::Asked, range: &trial::Range) -> Ended {
    let setups = trial::tell::setups(asked).into_iter();
    let rows: Vec<trial::tell::Row> = setups.map(|(number, setup)| (number, Trial::of(setup))).collect();
    // Which setups have too many panes or starting entries does not depend on the number.
    if let Some((_, Err(number @ 23))) = rows.first() {
        return trial_refused(&asked.setup, *number);
    }
    print(trial::tell::sweep(asked, range, &rows).as_bytes())?;
    match trial_status(arguments, rows.iter().filter_map(|(_, tried)| tried.as_ref().ok()))? {
        Status::Done if rows.iter().any(|(_, tried)| tried.is_err()) => Ok(Status::TrayRefused),
        status => Ok(status),
    }
}

/// The first rounds, as the text of a tray or drawn.
fn trial_rounds(arguments: &Arguments, setup: trial::Setup, rounds: u32) -> Ended {
    let file = arguments.file()?;
    let all = setup.rounds;
    let trial = match Trial::of(setup.clone()) {
        Ok(trial) => trial,
        Err(number) => return trial_refused(&setup, number),
    };
    if rounds > all {
        let why = format!("{file}: expected a number of rounds from 0 to {all}, found {rounds}");
        return Err(Failed::usage(why));
    }
    let head = format!("{}: the first {rounds} of {all} rounds.", file_name(file));
    let written = trial.replay.text(&head, rounds);
    match arguments.value("-o") {
        None => print(written.as_bytes())?,
        Some(to) => {
            let text = text::parse(&written).map_err(|fault| Failed::text(file, &fault))?;
            let history = history::History { title: head, ..history::History::of(text.frames().cloned()) };
            let drawn = draw::for_file(to, &history, &file_name(file), draw::default_width()).map_err(Failed::usage)?;
            write(to, drawn.as_bytes())?;
        }
    }
    trial_status(arguments, [&trial])
}

/// Those of all files, in their order.
fn all_sittings(arguments: &Arguments) -> Result<Vec<Sitting>, Failed> {
    let files = &arguments.files;
    let twice = files.iter().filter(|file| *file == "-").count() > 1;
    if files.is_empty() || twice || arguments.flag("--words") && arguments.has("--show") {
        return Err(Failed::usage(format!("expected {}, and `-` only once", arguments.verb.usage)));
    }
    let mut all = Vec::new();
    for file in files {
        let name = if file == "-" { "standard input" } else { file };
        all.extend(sittings::parse::parse(name, read(file)?).map_err(|fault| Failed::text(file, &fault))?);
    }
    Ok(all)
}

fn sittings_verb(arguments: &Arguments) -> Ended {
    let sittings = all_sittings(arguments)?;
    if let Some(name) = arguments.value("--show") {
        let named = sittings.iter().find(|sitting| sitting.name == name);
        let why = || Failed::usage(format!("expected the name of a sitting behind --show, found `{name}`"));
        print(bytes::show_tray(&named.ok_or_else(why)?.tray).as_bytes())?;
        return Ok(Status::Done);
    }
    let report = Report::of(&sittings);
    let told = match arguments.flag("--words") {
        true => sittings::tell::words_line(&report),
        false => sittings::tell::words(&report, &sittings),
    };
    print(told.as_bytes())?;
    Ok(sittings_status(&report, &sittings))
}

/// That of a report that was told; what the proofs exclude is told, too.
fn sittings_status(report: &Report, sittings: &[Sitting]) -> Status {
    let faults = report.faults(sittings);
    for fault in &faults {
        complain(&format!("{fault}: the archive is damaged, or this tool is wrong"));
    }
    match report.numbers.iter().all(|&number| number == 0) {
        _ if !faults.is_empty() => Status::NotAsProved,
        true => Status::Done,
        false => Status::TrayRefused,
    }
}

fn assemble_verb(arguments: &Arguments) -> Ended {
    let (_, tray) = arguments.tray()?;
    print(&tray)?;
    Ok(Status::Done)
}

fn show_verb(arguments: &Arguments) -> Ended {
    print(bytes::show_tray(&arguments.bytes()?).as_bytes())?;
    Ok(Status::Done)
}

fn overview() -> String {
    let verbs = VERBS.iter().map(|verb| format!("  {:<10}{}\n", verb.name, verb.about));
    format!(
        "tray: histories of the shared space in words and drawings, and every interleaving of panes\n\n{}\n{}",
        verbs.collect::<String>(),
        include_str!("help/statuses.txt")
    )
}

fn dispatch(words: &[String]) -> Ended {
    let Some((first, rest)) = words.split_first() else {
        return Err(Failed::usage(format!("expected a verb\n\n{}", overview())));
    };
    if matches!(first.as_str(), "--help" | "-h" | "help") {
        print(overview().as_bytes())?;
        return Ok(Status::Done);
    }
    let verb = VERBS.iter().find(|verb| verb.name == first);
    let verb = verb.ok_or_else(|| Failed::usage(format!("expected a verb, found `{first}`\n\n{}", overview())))?;
    if rest.iter().any(|word| word == "--help" || word == "-h") {
        print(format!("{}\n\n{}", verb.usage, verb.help).as_bytes())?;
        return Ok(Status::Done);
    }
    (verb.act)(&Arguments::parse(verb, rest)?)
}

fn main() -> ExitCode {
    let words: Result<Vec<String>, _> = std::env::args_os().skip(1).map(|word| word.into_string()).collect();
    let words = words.map_err(|word| Failed::usage(format!("expected words in UTF-8, found {word:?}")));
    let status = words.and_then(|words| dispatch(&words)).unwrap_or_else(|Failed { status, why }| {
        complain(&why);
        status
    });
    ExitCode::from(status as u8)
}

#[cfg(test)]
mod tests {
    use super::*;

    /// An answer is lost, as no sound archive loses one.
    #[test]
    fn what_the_proofs_exclude_has_a_status() {
        let text = text::parse("party 1 write 7 1 40 9 lease 5\nparty 2 take kind 7 timeout 0\n").unwrap();
        let mut outcome = history::run(&text, &text.tray().unwrap());
        let arguments = Arguments::parse(&VERBS[0], &["made-up".to_string()]).unwrap_or_else(|_| panic!("a file"));
        assert!(matches!(status_of(&arguments, &outcome), Ok(Status::Done)));
        outcome.history.steps[1].records[0].kind = tray::record::WAITING;
        assert!(matches!(status_of(&arguments, &outcome), Ok(Status::NotAsProved)));
    }

    /// A wait is counted that nobody had.
    #[test]
    fn so_has_a_report_that_counts_otherwise() {
        let sittings = sittings::parse::parse("made-up", b"party 2 take kind 7 timeout 3\ntick\n".to_vec()).unwrap();
        let mut report = Report::of(&sittings);
        assert!(matches!(sittings_status(&report, &sittings), Status::Done));
        report.words[11] += 1;
        assert!(matches!(sittings_status(&report, &sittings), Status::NotAsProved));
    }

    /// A commit is counted that never came.
    #[test]
    fn so_has_a_trial_that_counts_otherwise() {
        let text = "rounds 9\nstart kind 7 lease 9\npane lease 9 takes 7 timeout 0 writes 7 lease 9 hold 0\n";
        let setup = trial::parse::parse(text).unwrap().setup;
        let mut trial = Trial::of(setup).unwrap_or_else(|number| panic!("{number}"));
        let arguments = Arguments::parse(&VERBS[0], &["made-up".to_string()]).unwrap_or_else(|_| panic!("a file"));
        assert!(matches!(trial_status(&arguments, [&trial]), Ok(Status::Done)));
        trial.counts[0].commits += 1;
        assert!(matches!(trial_status(&arguments, [&trial]), Ok(Status::NotAsProved)));
    }
}
