//! The cases with RESET fields have every form of them.

use std::collections::BTreeMap;

use penthluk_reference::generate::random::Random;
use penthluk_reference::generate::reset_cases::{draw_reset_faults, reset_case};
use penthluk_reference::generate::reset_forms::reset_forms;

const CASES: u64 = 12_000;

/// What a text must have, and how many texts at least have it.
const WANTED: [(&str, usize); 24] = [
    ("no RESET", 400),
    ("RESET", 9_000),
    ("lines with and without RESET", 5_000),
    ("16,384 bytes, with RESET", 50),
    ("16,385 bytes, with RESET", 50),
    ("refused with 18", 600),
    ("18 with a RESET one too short", 100),
    ("18 with a RESET one too long", 60),
    ("accepted, with RESET", 4_000),
    ("accepted, 128 nodes with RESET", 100),
    ("RESET of 32 bits", 200),
    ("RESET of 64 bits", 150),
    ("RESET of a plain segment", 1_500),
    ("RESET with X", 3_000),
    ("RESET of a steering segment", 3_000),
    ("RESET of a steering segment, with X", 600),
    ("hold over RESET", 1_000),
    ("hold over RESET, X for a known bit", 400),
    ("hold over RESET, a known bit for X", 400),
    ("hold over RESET of a steering segment", 600),
    ("RESET that opens another path", 800),
    ("hold that decides the path over RESET", 250),
    ("9 by RESET", 900),
    ("9 by hold over RESET", 50),
];

#[test]
fn every_form_comes() {
    let mut counts: BTreeMap<&str, usize> = BTreeMap::new();
    for seed in 0..CASES {
        for form in reset_forms(&reset_case(seed).network) {
            assert!(WANTED.iter().any(|(wanted, _)| *wanted == form), "{form}");
            *counts.entry(form).or_default() += 1;
        }
    }
    for (form, least) in WANTED {
        let count = counts.get(form).copied().unwrap_or(0);
        assert!(count >= least, "{form}: {count} times, {counts:#?}");
    }
}

/// A fault at a RESET field stands beside faults of every other number.
#[test]
fn every_pair_comes() {
    let random = &mut Random::new(802);
    let mut pairs: BTreeMap<[u32; 2], usize> = BTreeMap::new();
    for _ in 0..4_000 {
        let faults = draw_reset_faults(random, 2);
        *pairs.entry([faults[0].number(), faults[1].number()]).or_default() += 1;
    }
    for first in [1, 2, 3, 4, 9, 18] {
        for second in (1..=9).chain([18]).filter(|&second| second != first) {
            let count = pairs.get(&[first, second]).copied().unwrap_or(0);
            assert!(count >= 3, "{first} and {second}: {count} times");
        }
    }
}
