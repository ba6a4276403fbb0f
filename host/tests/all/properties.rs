//! What must hold of every implementation, on generated cases whose right
//! answers are known from their plans.

use crate::proved::Proved;
use second::generate::share::share;
use second::properties::check_seed;

const SEEDS: usize = 1_000;

#[test]
fn properties_hold() {
    for seed in 0..share(SEEDS) as u64 {
        if let Err(trouble) = check_seed(&Proved, seed) {
            panic!("{trouble}");
        }
    }
}
