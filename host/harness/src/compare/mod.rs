//! A space and the reference, led through the same histories and trays; everything that can be seen is compared, byte
//! for byte. The reference is told nothing of the space's answers.

mod arcs;
mod bells;
mod blanks;
mod bounds;
mod buffer;
mod coverage;
mod discrepancy;
mod hand_outs;
mod pair;
mod registrations;
mod renewals;
mod situation;
mod steps;
mod tally;
mod trays;

pub use bells::Bells;
pub use bounds::compare_bounds;
pub use coverage::Coverage;
pub use discrepancy::{shortened, Discrepancy};
pub use pair::{in_order, replay};
pub use steps::on_any_words;
pub use tally::Sums;

use crate::generate::Generator;
use crate::subject::Subject;

/// The history or the tray of this seed.
pub fn compare<S: Subject>(seed: u64, coverage: &mut Coverage) -> Result<(), Discrepancy> {
    let mut generator = Generator::new(seed);
    if generator.random.percent(50) {
        trays::by_tray::<S>(&mut generator, coverage)
    } else {
        steps::by_frames::<S>(&mut generator, coverage)
    }
}
