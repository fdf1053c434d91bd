//! The cases with long registers have every form of them.

use std::collections::BTreeMap;

use penthluk_reference::generate::cases::case;
use penthluk_reference::generate::lengths::EDGE_LENGTHS;
use penthluk_reference::generate::long_cases::{draw_long_faults, long_case};
use penthluk_reference::generate::long_forms::long_forms;
use penthluk_reference::generate::random::Random;
use penthluk_reference::generate::reset_cases::reset_case;
use penthluk_reference::reader::read_network;

const CASES: u64 = 12_000;

/// What a text must have, and how many texts at least have it.
const WANTED: [(&str, usize); 55] = [
    ("accepted before Change 4", 600),
    ("accepted since Change 4", 3_500),
    ("63 bits with shadow", 1_500),
    ("63 bits, plain", 500),
    ("64 bits with shadow", 2_000),
    ("64 bits, plain", 700),
    ("64 bits alone", 200),
    ("62 segments of 64 bits and one of 32", 70),
    ("address of one bit, the highest of 64", 500),
    ("address of two bits, the highest of 64", 350),
    ("address of one bit, the highest of 63", 350),
    ("address of two bits, the highest of 63", 180),
    ("address of one bit, the first above 31", 200),
    ("address of two bits, 31 and 32", 200),
    ("bit 63 is 0", 400),
    ("bit 63 is 1", 130),
    ("bits 62, 63: 0", 200),
    ("bits 62, 63: 1", 50),
    ("bits 62, 63: 2", 60),
    ("bits 62, 63: 3", 25),
    ("hold of 63", 500),
    ("hold of 64", 1_000),
    ("RESET of 63", 450),
    ("RESET of 64", 750),
    ("hold with one X of 64", 200),
    ("RESET with one X of 64", 130),
    ("one X of 64 that steers, off the path", 25),
    ("RESET that decides by bits above 31", 250),
    ("hold that decides by bits above 31", 300),
    ("read of 64", 700),
    ("write of 64, another when turned", 700),
    ("2, 65 bits with shadow", 400),
    ("2, 65 bits, plain", 150),
    ("2, 65 bits and a RESET of 65", 150),
    ("2, 65 bits alone", 80),
    ("3, bit 4,001", 250),
    ("5, one bit at 64 of 64", 130),
    ("5, two bits at 63 of 64", 90),
    ("5, one bit at 63 of 63", 90),
    ("5, two bits at 62 of 63", 45),
    ("18, 64 for 63", 70),
    ("18, 65 for 63", 70),
    ("18, 63 for 64", 140),
    ("18, 65 for 64", 100),
    ("6, hold of 64 for 63", 35),
    ("6, hold of 65 for 63", 35),
    ("6, hold of 63 for 64", 55),
    ("6, hold of 65 for 64", 60),
    ("6, write of 64 for 63", 45),
    ("6, write of 65 for 63", 35),
    ("6, write of 63 for 64", 60),
    ("6, write of 65 for 64", 60),
    ("9, one X of 64 in a hold", 100),
    ("9, one X of 64 in a RESET", 80),
    ("9, address too high above bit 31", 130),
];

#[test]
fn every_form_comes() {
    let mut counts: BTreeMap<&str, usize> = BTreeMap::new();
    for seed in 0..CASES {
        for form in long_forms(&long_case(seed).network) {
            assert!(WANTED.iter().any(|(wanted, _)| *wanted == form), "{form}");
            *counts.entry(form).or_default() += 1;
        }
    }
    for (form, least) in WANTED {
        let count = counts.get(form).copied().unwrap_or(0);
        assert!(count >= least, "{form}: {count} times, {counts:#?}");
    }
}

/// A fault at a long register stands beside faults of every other number.
#[test]
fn every_pair_comes() {
    let random = &mut Random::new(812);
    let mut pairs: BTreeMap<[u32; 2], usize> = BTreeMap::new();
    for _ in 0..4_000 {
        let faults = draw_long_faults(random, 2);
        *pairs.entry([faults[0].number(), faults[1].number()]).or_default() += 1;
    }
    for first in [2, 3, 5, 6, 9, 18] {
        for second in (1..=9).chain([18]).filter(|&second| second != first) {
            let count = pairs.get(&[first, second]).copied().unwrap_or(0);
            assert!(count >= 4, "{first} and {second}: {count} times");
        }
    }
}

/// The other cases have segments of the lengths at which LEN's bounds are and were too.
#[test]
fn edge_lengths_come_everywhere() {
    for draw in [case, reset_case, long_case] {
        let mut counts = [0; EDGE_LENGTHS.len()];
        for seed in 0..CASES / 4 {
            let Ok(network) = read_network(&draw(seed).network) else { continue };
            let has = |len: usize| (1..=network.nodes.len()).any(|node| network.len(node) == len);
            for (count, len) in counts.iter_mut().zip(EDGE_LENGTHS) {
                *count += usize::from(has(len));
            }
        }
        assert!(counts.iter().all(|&count| count >= 100), "{counts:?}");
    }
}
