//! Times.

use crate::contenders::{area, better, Each, Run, Trays, CONTENDERS, HERE, PLAIN};
use crate::loads::{all_loads, Load};
use crate::table::Form;
use std::path::PathBuf;
use std::process::{Command, Stdio};
use std::time::Instant;

/// Turns in a row of a run; the median of their times counts.
const TURNS: usize = 61;

const ABOUT: &str = "\
here: the proved library; plain: host/reference; rows, columns: host/tuned, the faster marked. The code of each program
lies elsewhere in memory. A run is a process that times each load, the contenders in turn, less the filling of the
tables. A ratio is taken within a run. By placement: the least and the greatest of the programs' own medians of the last
ratio.";

/// Median and quartiles.
pub struct Spread {
    pub median: f64,
    low: f64,
    high: f64,
}

impl Spread {
    pub fn of(values: impl Iterator<Item = f64>) -> Spread {
        let mut values: Vec<f64> = values.collect();
        values.sort_by(f64::total_cmp);
        let at = |quarters: usize| values[(values.len() - 1) * quarters / 4];
        Spread { median: at(2), low: at(1), high: at(3) }
    }

    pub fn shown(&self, digits: usize) -> String {
        format!("{:.digits$} [{:.digits$}, {:.digits$}]", self.median, self.low, self.high)
    }
}

fn timed(run: Run, tray: &[u8], area: &mut [u8]) -> f64 {
    let begin = Instant::now();
    std::hint::black_box(run(std::hint::black_box(tray), area));
    begin.elapsed().as_nanos() as f64
}

/// ns a frame of each, in turn.
fn time(trays: &Trays, area: &mut [u8]) -> Each<f64> {
    let mut times = CONTENDERS.map(|_| (Vec::new(), Vec::new()));
    for _ in 0..TURNS {
        for (contender, (whole, setup)) in CONTENDERS.iter().zip(&mut times) {
            whole.push(timed(contender.run, &trays.whole, area));
            setup.push(timed(contender.run, &trays.setup, area));
        }
    }
    let median = |times: Vec<f64>| Spread::of(times.into_iter()).median;
    times.map(|(whole, setup)| (median(whole) - median(setup)) / trays.frames)
}

/// One run: a line for each load, with the ns a frame of each.
pub fn run() {
    let mut area = area();
    for load in all_loads() {
        let trays = Trays::of(&load);
        trays.check(&load.name);
        println!("{}", time(&trays, &mut area).map(|time| time.to_string()).join(" "));
    }
}

/// The times that a program's run prints.
fn run_of<const EACH: usize>(program: &PathBuf, verb: &str) -> Vec<[f64; EACH]> {
    let output = Command::new(program).arg(verb).stderr(Stdio::inherit()).output().expect("the program can be run");
    assert!(output.status.success(), "a run has failed");
    let text = String::from_utf8(output.stdout).expect("numbers");
    let times = |line: &str| -> Vec<f64> { line.split(' ').map(|time| time.parse().expect("a time")).collect() };
    text.lines().map(|line| times(line).try_into().expect("a time for each")).collect()
}

/// A load's times: for each program, of each run.
pub struct Row<const EACH: usize>(Vec<Vec<[f64; EACH]>>);

impl<const EACH: usize> Row<EACH> {
    pub fn over_all(&self, of: impl Fn(&[f64; EACH]) -> f64) -> Spread {
        Spread::of(self.0.iter().flatten().map(of))
    }

    /// The least and the greatest of the programs' own medians.
    pub fn by_program(&self, of: impl Fn(&[f64; EACH]) -> f64) -> String {
        let mut medians: Vec<f64> = self.0.iter().map(|runs| Spread::of(runs.iter().map(&of)).median).collect();
        medians.sort_by(f64::total_cmp);
        format!("{:.2} to {:.2}", medians[0], medians[medians.len() - 1])
    }
}

impl Row<{ CONTENDERS.len() }> {
    fn cells(&self, form: Form) -> Vec<String> {
        let medians: Each<f64> = std::array::from_fn(|it| self.over_all(|times| times[it]).median);
        let ratio = |it: usize| move |times: &Each<f64>| times[HERE] / times[it];
        let (plain, faster) = (ratio(PLAIN), ratio(better(&medians)));
        let mut cells = vec![self.over_all(|times| times[HERE]).shown(1), format!("{:.1}", medians[PLAIN])];
        cells.push(self.over_all(plain).shown(2));
        cells.extend(form.tuned(&medians));
        cells.extend([self.over_all(faster).shown(2), self.by_program(faster)]);
        cells
    }
}

/// So many runs of each program, in turn: a row for each load.
pub fn rows<const EACH: usize>(verb: &str, loads: usize, runs: usize, programs: &[PathBuf]) -> Vec<Row<EACH>> {
    let mut rows: Vec<Row<EACH>> = (0..loads).map(|_| Row(vec![Vec::new(); programs.len()])).collect();
    for number in 1..=runs {
        for (place, program) in programs.iter().enumerate() {
            rows.iter_mut().zip(run_of(program, verb)).for_each(|(row, times)| row.0[place].push(times));
        }
        eprintln!("run {number} of {runs}");
    }
    rows
}

pub fn print(form: Form, runs: usize, programs: &[PathBuf]) {
    let loads: Vec<Load> = all_loads();
    let rows = rows("run", loads.len(), runs, programs);
    println!("ns a frame, medians over {runs} runs of each of {} programs [quartiles].\n{ABOUT}", programs.len());
    let columns = ["here", "plain", "here / plain", "rows", "columns", "here / faster", "by placement"];
    let cells: Vec<Vec<String>> = rows.iter().map(|row| row.cells(form)).collect();
    form.print(&columns, &loads, &cells);
}
