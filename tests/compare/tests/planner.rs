//! The proved planner answers as the plain Rust version does and leaves the same content in both
//! buffers. Its plans pass the proved marker and do on the test frame what the pass says; on small
//! networks they are those that a search over all bit strings gives.

mod plan_counts;

use penthluk_reference::generate::cases::{damaged_with, draw_network_text};
use penthluk_reference::generate::draft::Draft;
use penthluk_reference::generate::edges::held_chain;
use penthluk_reference::generate::faults::{all_faults, FAULTS};
use penthluk_reference::generate::large::{chain, full, large, steered};
use penthluk_reference::generate::long_cases::{draw_long_network, draw_long_text};
use penthluk_reference::generate::long_registers::longest_choices;
use penthluk_reference::generate::maze::{gray, maze, GrayWalk};
use penthluk_reference::generate::random::Random;
use penthluk_reference::generate::reset_cases::{
    draw_reset_text, give_resets, held_reset_chain, reset_damaged_with,
};
use penthluk_reference::generate::rounds::many_rounds;
use penthluk_reference::generate::sib::{sib_chain, sib_tree, Size};
use penthluk_reference::generate::tiny::tiny;
use penthluk_reference::generate::unknown::make_unknown;
use penthluk_reference::limits::{
    EARLIER_SEGMENT_BITS, MAX_NETWORK_BITS, MAX_NODES, MAX_OPERATIONS, MAX_PLAN_BYTES,
    MAX_SEGMENT_BITS, MAX_STEERING_BITS, SEARCH_ENTRIES,
};
use plan_counts::{Counts, ALL_LENGTHS};

/// Plans so many random networks.
#[track_caller]
fn plan_many(seed: u64, networks: usize, draw: impl Fn(&mut Random) -> Draft) -> Counts {
    let random = &mut Random::new(seed);
    let mut counts = Counts::default();
    for _ in 0..networks {
        let text = draw(random).text();
        counts.plan(random, &text);
    }
    counts
}

#[test]
fn tiny_networks() {
    let counts = plan_many(3_001, 14_000, |random| {
        let bits = *random.pick(&[4, 7, 7, 20]);
        tiny(random, bits)
    });
    counts.answered(&[(0, 17_000), (9, 1_000), (10, 50), (11, 8_000), (12, 14_000), (13, 2_000)]);
    counts.had_operations(&[4_000, 4_000, 700, 30]);
    assert!(counts.tried >= 12_000, "{counts:?}");
    assert!(counts.shared >= 2_500 && counts.two_bits >= 2_500, "{counts:?}");
}

/// Up to seven SIBs in a row or within each other.
#[test]
fn sib_networks() {
    let counts = plan_many(3_002, 6_000, |random| {
        let (sibs, len) = (random.between(1, 7), *random.pick(&[1, 2, 32]));
        let size = Size { depth: 6, sibs, len };
        if random.bit() {
            sib_chain(random, size)
        } else {
            sib_tree(random, size)
        }
    });
    counts.answered(&[(0, 8_000), (9, 400), (10, 2_500), (11, 80), (12, 5_000), (13, 2_000)]);
    counts.had_operations(&[200, 30, 2_500, 600, 500, 300, 150, 70]);
    assert!(counts.tried >= 2_000, "{counts:?}");
}

/// Trees of multiplexers with targets many operations away.
#[test]
fn mazes() {
    let counts = plan_many(3_003, 7_000, |random| {
        let (depth, len) = (random.between(1, 4), random.between(1, 4));
        maze(random, depth, len)
    });
    counts.answered(&[(0, 4_500), (9, 700), (10, 500), (11, 8_000), (12, 7_000), (13, 600)]);
    counts.had_operations(&[800, 700, 400, 100, 60, 20, 10]);
    assert!(counts.tried >= 5_000, "{counts:?}");
    assert!(counts.shared >= 1_000 && counts.two_bits >= 1_000, "{counts:?}");
}

#[test]
fn networks_with_unknown_steering_bits() {
    let counts = plan_many(3_004, 14_000, |random| {
        let mut draft = match random.below(8) {
            0..=2 => tiny(random, 12),
            3..=6 => maze(random, 3, 1),
            _ => {
                let sibs = random.between(2, 6);
                sib_tree(random, Size { depth: 4, sibs, len: 3 })
            }
        };
        make_unknown(random, &mut draft);
        draft
    });
    counts.answered(&[(0, 10_000), (9, 1_500), (10, 50), (11, 15_000), (12, 14_000), (13, 1_500)]);
    counts.had_operations(&[2_000, 2_000, 800, 300, 100, 50, 10]);
    assert!(counts.unknown >= 500, "{counts:?}");
}

/// RESET fields that open branches at the start or leave steering bits unknown, and `hold` lines over
/// them.
#[test]
fn networks_with_resets() {
    let counts = plan_many(3_009, 8_000, |random| {
        let mut draft = match random.below(8) {
            0..=2 => tiny(random, 8),
            3..=5 => maze(random, 3, 1),
            _ => {
                let sibs = random.between(2, 6);
                sib_tree(random, Size { depth: 4, sibs, len: 3 })
            }
        };
        if random.bit() {
            make_unknown(random, &mut draft);
        }
        give_resets(random, &mut draft);
        draft
    });
    counts.answered(&[(0, 5_000), (9, 2_000), (10, 5), (11, 5_000), (12, 6_000), (13, 800)]);
    counts.had_operations(&[800, 900, 500, 300, 150, 60]);
    assert!(counts.unknown >= 150 && counts.tried >= 4_000, "{counts:?}");
}

/// Registers up to 64 bits, steered by their upper bits, and texts with what does not fit.
#[test]
fn networks_with_long_registers() {
    let counts = plan_many(3_011, 6_000, draw_long_network);
    counts.answered(&[(0, 4_500), (9, 800), (10, 100), (11, 600), (12, 4_000), (13, 700)]);
    counts.had_operations(&[700, 900, 800, 50, 30, 20]);
    let random = &mut Random::new(3_012);
    let mut counts = Counts::default();
    for _ in 0..3_000 {
        let text = draw_long_text(random);
        counts.plan(random, &text);
    }
    counts.answered(&[
        (0, 1_500),
        (1, 500),
        (2, 700),
        (3, 250),
        (4, 120),
        (5, 450),
        (6, 550),
        (7, 20),
        (8, 5),
        (9, 700),
        (10, 50),
        (11, 220),
        (12, 1_100),
        (13, 300),
        (18, 650),
    ]);
}

/// Texts with RESET fields of all kinds, one of three damaged, and texts with each fault.
#[test]
fn generated_texts_with_resets() {
    let random = &mut Random::new(3_010);
    let mut counts = Counts::default();
    for _ in 0..3_000 {
        let text = draw_reset_text(random);
        counts.plan(random, &text);
    }
    for fault in all_faults() {
        for _ in 0..20 {
            let text = reset_damaged_with(random, &[fault]).0.text();
            counts.plan(random, &text);
        }
    }
    let longest = held_reset_chain(random).text();
    counts.plan_with(random, &longest, true);
    counts.answered(&[
        (0, 1_500),
        (1, 1_200),
        (2, 600),
        (3, 600),
        (4, 300),
        (5, 100),
        (6, 100),
        (7, 40),
        (8, 40),
        (9, 1_000),
        (10, 100),
        (11, 800),
        (12, 1_200),
        (13, 200),
        (18, 600),
    ]);
}

/// Texts of all kinds, one of four damaged, and texts with each fault: every refusal of a network.
#[test]
fn generated_texts() {
    let random = &mut Random::new(3_005);
    let mut counts = Counts::default();
    for _ in 0..8_500 {
        let text = draw_network_text(random);
        counts.plan(random, &text);
    }
    for fault in FAULTS {
        for _ in 0..30 {
            let text = damaged_with(random, &[fault]).0.text();
            counts.plan(random, &text);
        }
    }
    counts.answered(&[
        (0, 4_500),
        (1, 3_000),
        (2, 900),
        (3, 700),
        (4, 900),
        (5, 700),
        (6, 600),
        (7, 200),
        (8, 100),
        (9, 800),
        (10, 700),
        (11, 2_500),
        (12, 4_000),
        (13, 900),
    ]);
    counts.had_operations(&[5; MAX_OPERATIONS + 1]);
}

/// Every least number of operations from 1 to 16, and 17 and more, which are refused with 11.
#[test]
fn exact_operations() {
    let random = &mut Random::new(3_006);
    let mut counts = Counts::default();
    for operations in 1..=24 {
        let mut drafts = Vec::new();
        for write in [None, Some("1"), Some("0110")] {
            for always in [&[][..], &[1], &[3, 32]] {
                drafts.push(gray(operations, write, always));
                let stops = [0, operations / 2, operations.saturating_sub(2)];
                if operations > 4 {
                    let walk = GrayWalk { bits: 5, operations, write, stops: &stops, always };
                    drafts.push(walk.draft());
                }
            }
        }
        for draft in drafts {
            let answer = counts.plan(random, &draft.text());
            assert_eq!(answer[0] == 11, operations > MAX_OPERATIONS, "{operations}");
        }
    }
    counts.answered(&[(0, 400), (11, 300), (12, 400), (13, 100)]);
    let [none, least @ ..] = counts.operations;
    assert!(none == 0 && least.iter().all(|&count| count >= 9), "{counts:?}");
    assert!(counts.tried >= 100, "{counts:?}");
}

/// Up to eight steering bits: 10 from seven on.
#[test]
fn steering_counts() {
    let random = &mut Random::new(3_007);
    let mut counts = Counts::default();
    for bits in 0..=8 {
        for _ in 0..ALL_LENGTHS {
            let answer = counts.plan(random, &steered(bits).text());
            match bits > MAX_STEERING_BITS {
                true => assert_eq!(answer, [10, bits]),
                false => assert!([0, 11].contains(&answer[0]), "{answer:?}"),
            }
        }
    }
    counts.answered(&[(0, 150), (10, 100), (11, 30), (12, 100), (13, 40)]);
}

/// Networks at the limits: most nodes, most bits, plans of 16 operations and about 50,000 bytes, each
/// with all pairs of lengths.
#[test]
fn large_networks() {
    let random = &mut Random::new(3_008);
    let mut counts = Counts::default();
    let mut choices = longest_choices(random);
    choices.draw_targets(random, 20);
    let [ones, long] = [EARLIER_SEGMENT_BITS, MAX_SEGMENT_BITS].map(|len| "1".repeat(len));
    for draft in [
        chain(MAX_NODES, MAX_NETWORK_BITS),
        held_chain(random),
        full(),
        many_rounds(),
        gray(MAX_OPERATIONS, Some(&ones), &[EARLIER_SEGMENT_BITS; 108]),
        gray(MAX_OPERATIONS + 1, Some(&ones), &[EARLIER_SEGMENT_BITS; 90]),
        gray(MAX_OPERATIONS, Some(&long), &[MAX_SEGMENT_BITS; 61]),
        choices,
    ] {
        counts.plan_with(random, &draft.text(), true);
    }
    assert_eq!(counts.operations[MAX_OPERATIONS], 3, "{counts:?}");
    for _ in 0..200 {
        let text = large(random).text();
        counts.plan(random, &text);
    }
    counts.answered(&[(0, 120), (9, 80), (10, 50), (11, 100), (12, 150), (13, 30)]);
    assert!(counts.shared >= 50 && counts.two_bits >= 50, "{counts:?}");
}

/// The drawn networks of document 01, with their plans.
#[test]
fn drawn_networks() {
    let networks: [(&[u8], Result<&[u8], usize>); 5] = [
        (
            b"seg\t0\t4\ts\nmux\t3\t0\t0\t1\nseg\t2\t1\ts\nout\t3\nwrite\t1\t1010\n",
            Ok(b"csu\t1\ncsu\t00101\n"),
        ),
        (
            b"seg\t0\t2\ts\nseg\t0\t2\ts\nmux\t4\t0\t1\t2\nseg\t3\t1\ts\nout\t4\nread\t1\nread\t2\n",
            Ok(b"csu\t100\ncsu\t000\n"),
        ),
        (b"seg\t0\t1\ts\nseg\t1\t4\ts\nmux\t1\t0\t0\t2\nout\t3\nread\t2\n", Err(11)),
        (b"", Err(4)),
        (b"out\t0\n", Ok(b"")),
    ];
    for (text, expected) in networks {
        let (answer, written) = Counts::default().compare(text, SEARCH_ENTRIES, MAX_PLAN_BYTES);
        match expected {
            Ok(plan) => assert_eq!((answer, &written[..]), ([0, plan.len()], plan)),
            Err(number) => assert_eq!(answer[0], number),
        }
    }
}
