//! What the tests share: the program itself, and random histories.

use std::io::Write;
use std::path::{Path, PathBuf};
use std::process::{Command, Stdio};
use tray::boundary::Space;
use tray::bytes::frames_of;
use tray::text::parse;
use tray::words::{tables, Tables};

pub struct Answer {
    pub status: i32,
    pub out: String,
    pub err: String,
}

/// The program, with these arguments and this standard input.
pub fn tray(arguments: &[&str], input: &str) -> Answer {
    let mut program = Command::new(env!("CARGO_BIN_EXE_tray"));
    let program = program.args(arguments).stdin(Stdio::piped()).stdout(Stdio::piped()).stderr(Stdio::piped());
    let mut child = program.spawn().unwrap();
    let mut stdin = child.stdin.take().unwrap();
    let input = input.to_string();
    let writer = std::thread::spawn(move || stdin.write_all(input.as_bytes()));
    let output = child.wait_with_output().unwrap();
    let _ = writer.join().unwrap();
    Answer {
        status: output.status.code().unwrap_or(-1),
        out: String::from_utf8(output.stdout).unwrap(),
        err: String::from_utf8(output.stderr).unwrap(),
    }
}

/// `tray run` refuses each of these lines: status 2, nothing printed, and what was expected is told.
pub fn bad_lines(lines: &[(&str, &str)]) {
    for (line, expected) in lines {
        let answer = tray(&["run", "-"], line);
        assert_eq!((answer.status, answer.out.as_str()), (2, ""), "{line}");
        assert!(answer.err.contains(&format!("tray: -:1: expected {expected}")), "{line}: {}", answer.err);
    }
}

/// The files of a folder of the repository with this ending, by name.
pub fn files(folder: &str, ending: &str) -> Vec<PathBuf> {
    let folder = Path::new("../..").join(folder);
    let entries = std::fs::read_dir(&folder).unwrap_or_else(|error| panic!("{}: {error}", folder.display()));
    let mut files: Vec<PathBuf> = entries.map(|entry| entry.unwrap().path()).collect();
    files.retain(|file| file.to_string_lossy().ends_with(ending));
    files.sort();
    assert!(!files.is_empty(), "no {ending} in {}", folder.display());
    files
}

/// A folder of its own for a test's files.
pub fn scratch(name: &str) -> PathBuf {
    let folder = Path::new(env!("CARGO_TARGET_TMPDIR")).join(name);
    std::fs::create_dir_all(&folder).unwrap();
    folder
}

/// The frame that a line stands for.
pub fn assembled(line: &str) -> Vec<u8> {
    let tray = parse(line).unwrap().tray().unwrap();
    frames_of(&tray)[0].to_vec()
}

/// Numbers that look random, the same for the same seed.
pub struct Random(pub u64);

impl Random {
    pub fn below(&mut self, bound: u64) -> u64 {
        self.0 = self.0.wrapping_mul(6364136223846793005).wrapping_add(1442695040888963407);
        (self.0 >> 33) % bound
    }

    pub fn pick<'a>(&mut self, of: &[&'a str]) -> &'a str {
        of[self.below(of.len() as u64) as usize]
    }
}

/// A renewal: mostly of a stored entry, by the party that wrote it.
fn random_renewal(random: &mut Random, tables: &Tables) -> String {
    let lease = random.pick(&["0", "1", "2", "4", "forever", "4294967294"]);
    let known = random.below(tables.entries.len().max(1) as u64) as usize;
    let (mut party, mut number) = tables.entries.get(known).map_or((1, 1), |entry| (entry.writer, entry.number));
    match random.below(10) {
        0 => party = 1 + random.below(6) as u8,
        1 => number = 1 + random.below(u64::from(tables.next_entry)) as u32,
        _ => {}
    }
    format!("party {party} renew {number} lease {lease}")
}

#[rustfmt::skip]
const TEMPLATES: [&str; 12] = [
    "any", "kind 1", "kind 2", "kind 1 side 1", "side 2", "place 0",
    "any", "kind 1 arc 11:00 to 12:09", "kind 2", "kind 1 side 1", "side 2", "arc 12:00 to 12:08",
];

/// A line of a history in which much happens: few kinds, some blanks, short leases, and mostly the transactions' own
/// parties and the entries' own writers.
fn random_line(random: &mut Random, created: &mut Vec<u64>, tables: &Tables) -> String {
    let mut party = 1 + random.below(6);
    let mut inside = String::new();
    if random.below(2) == 0 && !created.is_empty() {
        let back = random.below(3.min(created.len() as u64)) as usize;
        party = created[created.len() - 1 - back];
        inside = format!(" in {}", created.len() - back);
    }
    let kind = 1 + random.below(2);
    match random.below(17) {
        0..=3 => {
            let lease = random.pick(&["0", "1", "2", "3", "5", "forever", "forever"]);
            let rest = random.pick(&["0 4 9", "1 4 9", "2 4 0", "1 4 blank", "2 4 blank", "blank blank blank"]);
            format!("party {party} write {kind} {rest} lease {lease}{inside}")
        }
        4..=8 => {
            let look_up = random.pick(&["read", "take", "readIfExists", "takeIfExists"]);
            let timeout = random.pick(&["0", "0", "1", "2", "4", "forever"]);
            format!("party {party} {look_up} {} timeout {timeout}{inside}", random.pick(&TEMPLATES))
        }
        9..=10 => {
            created.push(party);
            format!("party {party} create lease {}", random.pick(&["1", "2", "4", "forever"]))
        }
        11 if !inside.is_empty() => format!("party {party} {}{}", random.pick(&["commit", "abort"]), &inside[3..]),
        14..=16 => random_renewal(random, tables),
        _ => "tick".to_string(),
    }
}

fn random_notify(random: &mut Random) -> String {
    let (party, lease) = (1 + random.below(6), random.pick(&["1", "2", "3", "4", "0", "forever", "4294967294"]));
    format!("party {party} notify {} lease {lease}", random.pick(&TEMPLATES))
}

/// So many frames, and now and then a notify besides.
pub fn random_text(seed: u64, frames: usize) -> String {
    let (mut random, mut created, mut space) = (Random(seed), Vec::new(), Space::default());
    let (mut text, mut listening) = (String::new(), Random(!seed));
    for _ in 0..frames {
        let listens = (listening.below(8) == 0).then(|| random_notify(&mut listening));
        let line = random_line(&mut random, &mut created, &tables(&space.words));
        for line in listens.into_iter().chain([line]) {
            parse(&line).unwrap().frames().for_each(|asked| _ = space.step(&asked.frame));
            text += &(line + "\n");
        }
    }
    text
}
