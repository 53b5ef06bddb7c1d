//! What only the tests need of trays and exports, to standard output:
//!
//!     test_trays random SEED   a random tray, perhaps damaged
//!     test_trays reference     the reference's run of the tray on standard input, printed as the program prints it
//!     test_trays export SEED   a random export, perhaps damaged
//!     test_trays order         the reference's order of the export on standard input, printed likewise

use harness::generate::Generator;
use harness::orders::export_bytes;
use reference::order::{find_order, MOST_TRANSACTIONS};
use std::io::{self, Read, Write};
use std::process::ExitCode;
use tray::boundary::{Done, PROGRAM_AREA};
use tray::run::raw;

fn by_reference() -> io::Result<Vec<u8>> {
    let (mut tray, mut area) = (Vec::new(), vec![0; PROGRAM_AREA]);
    io::stdin().read_to_end(&mut tray)?;
    let done = reference::tray::run(&tray, &mut area);
    Ok(raw(&area, Done::of(done.packed())).into_bytes())
}

/// Bytes that are no whole words are no export.
fn order_by_reference() -> io::Result<Vec<u8>> {
    let (mut export, mut order) = (Vec::new(), [0; MOST_TRANSACTIONS]);
    io::stdin().read_to_end(&mut export)?;
    let words =
        export.chunks(4).map(|bytes| bytes.try_into().ok().map(u32::from_le_bytes)).collect::<Option<Vec<u32>>>();
    let line = match words.map(|words| (find_order(&words, &mut order), words)) {
        Some((1, words)) => order[..words[0] as usize].iter().map(u8::to_string).collect::<Vec<String>>().join(" "),
        Some((0, _)) => "none".to_string(),
        _ => "refused 22".to_string(),
    };
    Ok((line + "\n").into_bytes())
}

fn seed(text: &str) -> Result<u64, String> {
    text.parse().map_err(|_| format!("`{text}` is no seed"))
}

fn answer(arguments: &[&str]) -> Result<Vec<u8>, String> {
    match arguments {
        ["reference"] => by_reference().map_err(|error| error.to_string()),
        ["random", text] => Ok(Generator::new(seed(text)?).tray()),
        ["export", text] => Ok(export_bytes(seed(text)?)),
        ["order"] => order_by_reference().map_err(|error| error.to_string()),
        _ => Err("usage: test_trays random SEED | reference | export SEED | order".to_string()),
    }
}

fn main() -> ExitCode {
    let arguments: Vec<String> = std::env::args().skip(1).collect();
    let arguments: Vec<&str> = arguments.iter().map(String::as_str).collect();
    match answer(&arguments).and_then(|bytes| io::stdout().write_all(&bytes).map_err(|error| error.to_string())) {
        Ok(()) => ExitCode::SUCCESS,
        Err(why) => {
            eprintln!("test_trays: {why}");
            ExitCode::FAILURE
        }
    }
}
