//! Prints the times of the calls: `bench [SEED]`. What is timed, and on what, stands in differential/src/timing.

use differential::{ours::Ours, timing};
use std::env;

fn main() {
    let seed = env::args().nth(1).map_or(1, |seed| seed.parse().expect("the seed is a number"));
    if cfg!(debug_assertions) {
        eprintln!("built without --release: these times say nothing");
    }
    timing::run(&Ours, seed);
}
