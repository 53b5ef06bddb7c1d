//! Instructions, which depend neither on the machine's state nor on where the code lies.

use crate::contenders::{area, better, Each, Run, Trays, CONTENDERS, HERE, PLAIN};
use crate::loads::{all_loads, Load};
use crate::table::Form;
use std::hint::black_box;
use std::io::ErrorKind;
use std::path::PathBuf;
use std::process::Command;

/// Valgrind knows it by its name: what it does is counted, and the count written when it ends.
#[inline(never)]
fn counted_tray(run: Run, tray: &[u8], area: &mut [u8]) {
    black_box(run(black_box(tray), area));
}

/// Under valgrind: for each load the setup, then the whole; each once before, since the heap is not new to a frame.
pub fn run(name: &str) {
    let contender = CONTENDERS.iter().find(|it| it.name == name).expect("a contender");
    let run = black_box(contender.run);
    let mut area = area();
    for load in all_loads() {
        let trays = Trays::of(&load);
        for tray in [&trays.setup, &trays.whole] {
            run(tray, &mut area);
            counted_tray(run, tray, &mut area);
        }
    }
}

/// The counts of a contender's trays, in their order.
fn counts(name: &str) -> Result<Vec<f64>, String> {
    let program = std::env::current_exe().map_err(|why| why.to_string())?;
    let dump: PathBuf = program.with_file_name(format!("counted-{name}"));
    let _ = std::fs::remove_file(&dump);
    let output = Command::new("valgrind")
        .args(["--tool=callgrind", "--toggle-collect=*counted_tray", "--dump-after=*counted_tray"])
        .arg("--combine-dumps=yes")
        .arg(format!("--callgrind-out-file={}", dump.display()))
        .arg(&program)
        .args(["counted", name])
        .output();
    let output = output.map_err(|why| match why.kind() {
        ErrorKind::NotFound => "instructions are counted by valgrind, which is not installed".to_string(),
        _ => format!("valgrind: {why}"),
    })?;
    if !output.status.success() {
        return Err(format!("valgrind: {}", String::from_utf8_lossy(&output.stderr)));
    }
    let text = std::fs::read_to_string(&dump).map_err(|why| format!("{}: {why}", dump.display()))?;
    let counts = text.lines().filter_map(|line| line.strip_prefix("summary: "));
    Ok(counts.filter_map(|count| count.trim().parse().ok()).collect())
}

/// For each load the instructions a frame.
fn a_frame(name: &str, loads: &[Load]) -> Result<Vec<f64>, String> {
    let counts = counts(name)?;
    if counts.len() < 2 * loads.len() {
        return Err(format!("valgrind: {} counts, not {}", counts.len(), 2 * loads.len()));
    }
    let each = loads.iter().zip(counts.chunks_exact(2));
    Ok(each.map(|(load, counts)| (counts[1] - counts[0]) / load.frames.len() as f64).collect())
}

fn cells(form: Form, counts: &Each<f64>) -> Vec<String> {
    let ratio = |it: usize| format!("{:.2}", counts[HERE] / counts[it]);
    let mut cells = vec![format!("{:.1}", counts[HERE]), format!("{:.1}", counts[PLAIN]), ratio(PLAIN)];
    cells.extend(form.tuned(counts));
    cells.push(ratio(better(counts)));
    cells
}

pub fn print(form: Form) -> Result<(), String> {
    let loads = all_loads();
    let counts: Vec<Vec<f64>> = CONTENDERS.iter().map(|it| a_frame(it.name, &loads)).collect::<Result<_, _>>()?;
    println!("Instructions a frame by valgrind's callgrind, the C library's included, less the filling of the tables.");
    println!("here: the proved library; plain: host/reference; rows, columns: host/tuned, the fewer marked.");
    let columns = ["here", "plain", "here / plain", "rows", "columns", "here / fewer"];
    let rows = (0..loads.len()).map(|place| cells(form, &std::array::from_fn(|it| counts[it][place])));
    form.print(&columns, &loads, &rows.collect::<Vec<_>>());
    Ok(())
}
