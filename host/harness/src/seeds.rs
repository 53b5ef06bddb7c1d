//! Things made from seeds, compared one after the other: what the programs `differ_orders`, `differ_trials` and
//! `differ_sittings` are, and the counters of what occurred.

use std::collections::BTreeMap;
use std::fmt::Display;
use std::process::ExitCode;

/// How often each of the situations that are listed has occurred.
pub struct Situations {
    listed: &'static [&'static str],
    times: BTreeMap<&'static str, u64>,
}

impl Situations {
    pub fn of(listed: &'static [&'static str]) -> Situations {
        Situations { listed, times: BTreeMap::new() }
    }

    /// Once more, if it holds. One that is not listed ends the run.
    pub fn note(&mut self, situation: &str, holds: bool) {
        let name = self.listed.iter().find(|name| **name == situation);
        let name = name.unwrap_or_else(|| panic!("`{situation}` is not listed"));
        *self.times.entry(name).or_default() += u64::from(holds);
    }

    fn times(&self, name: &str) -> u64 {
        self.times.get(name).copied().unwrap_or(0)
    }

    /// What can occur and did not.
    fn missing(&self) -> Vec<&'static str> {
        self.listed.iter().copied().filter(|name| self.times(name) == 0).collect()
    }

    fn print(&self) {
        let wide = self.listed.iter().map(|name| name.chars().count()).max().unwrap_or(0);
        self.listed.iter().for_each(|name| println!("  {name:<wide$} {:>10}", self.times(name)));
    }
}

/// What is counted while things are compared.
pub trait Coverage: Default {
    fn situations(&self) -> &Situations;

    /// What the things were made of, behind their number in the last line.
    fn made_of(&self) -> String {
        String::new()
    }
}

/// A program that compares things with the reference: `NAME [COUNT] [SEED] [SUBJECT]`. Thing number k has seed SEED + k,
/// so `NAME 1 S` repeats that of seed S alone.
pub struct Program {
    pub name: &'static str,
    /// "setups"
    pub things: &'static str,
    /// How many, if it is not said.
    pub usual: u64,
    /// With fewer than this, what did not occur is only printed.
    pub enough: u64,
    /// What can be compared; the first, if it is not said.
    pub subjects: &'static [&'static str],
}

/// What the program is to do: compare so many things from a seed on.
pub struct Asked {
    wanted: u64,
    first: u64,
    pub subject: &'static str,
}

impl Program {
    /// None if the arguments are others than these.
    fn asked(&self, arguments: &[String]) -> Option<Asked> {
        let number =
            |place: usize, otherwise: u64| arguments.get(place).map_or(Some(otherwise), |text| text.parse().ok());
        let named = arguments.get(2).map_or(self.subjects[0], String::as_str);
        let subject = self.subjects.iter().find(|subject| **subject == named)?;
        let asked = Asked { wanted: number(0, self.usual)?, first: number(1, 1)?, subject };
        (asked.wanted > 0 && arguments.len() <= 3).then_some(asked)
    }

    /// The program: does what is asked for, or tells how to ask.
    pub fn main(&self, does: impl Fn(&Asked) -> ExitCode) -> ExitCode {
        let arguments: Vec<String> = std::env::args().skip(1).collect();
        match self.asked(&arguments) {
            Some(asked) => does(&asked),
            None => {
                let Program { name, things, subjects, .. } = self;
                eprintln!("usage: {name} [{}] [SEED] [{}]", things.to_uppercase(), subjects.join("|"));
                ExitCode::from(2)
            }
        }
    }

    /// Compares, with `ours` the name of what is compared; the first discrepancy ends it.
    pub fn compare<C: Coverage, D: Display>(
        &self,
        &Asked { wanted, first, .. }: &Asked,
        ours: &str,
        compare: impl Fn(u64, &mut C) -> Result<(), D>,
    ) -> ExitCode {
        let mut coverage = C::default();
        let last = first + (wanted - 1);
        for seed in first..=last {
            if let Err(discrepancy) = compare(seed, &mut coverage) {
                println!("# DISCREPANCY of {ours} with the reference, seed {seed}\n{discrepancy}");
                return ExitCode::FAILURE;
            }
        }
        coverage.situations().print();
        let missing = coverage.situations().missing();
        if !missing.is_empty() {
            println!("did not occur: {}", missing.join(", "));
        }
        let (things, made_of) = (self.things, coverage.made_of());
        println!("{wanted} {things}{made_of} compared, seeds {first} to {last}: no discrepancy");
        match missing.is_empty() || wanted < self.enough {
            true => ExitCode::SUCCESS,
            false => ExitCode::FAILURE,
        }
    }
}
