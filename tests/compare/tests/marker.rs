//! The proved marker answers as the plain Rust version does: verdict, counts and `got` rows.

mod short_plans;

use penthluk_compare::expected::{mark_numbers, refusal_numbers};
use penthluk_reference::generate::cases::{case, damaged_with, draw_network, draw_plan};
use penthluk_reference::generate::edges::{draw_edge_network, draw_edge_plan, held_chain};
use penthluk_reference::generate::faults::{all_faults, FAULTS};
use penthluk_reference::generate::large::{full, large};
use penthluk_reference::generate::long_cases::{draw_long_network, long_case};
use penthluk_reference::generate::long_registers::{longest_choices, longest_row};
use penthluk_reference::generate::near::{near, CHANGES};
use penthluk_reference::generate::plan_damage::{damage_plan, PLAN_FAULTS};
use penthluk_reference::generate::plans::wander;
use penthluk_reference::generate::random::Random;
use penthluk_reference::generate::reset_cases::{
    draw_edge_reset, draw_reset_network, give_resets, held_reset_chain, reset_case,
    reset_damaged_with,
};
use penthluk_reference::limits::MAX_OPERATIONS;
use penthluk_reference::marker;
use penthluk_reference::plan_text::write_plan;
use penthluk_reference::reader::read_network;
use penthluk_reference::refusal::Refusal;
use short_plans::each_short_plan;

/// Pairs from all generators of networks and plans.
const CASES: u64 = 100_000;
/// Pairs whose networks have RESET fields.
const RESET_CASES: u64 = 50_000;
/// Pairs whose networks have long registers.
const LONG_CASES: u64 = 50_000;
/// Networks whose passed plan is changed in each way.
const NETWORKS: u64 = 30_000;
/// Damaged texts of each kind.
const DAMAGED: u64 = 1_000;
/// Networks near the limits.
const LARGE: u64 = 300;

/// How often each number came; 0 is a pass.
#[derive(Default, Debug)]
struct Counts {
    numbers: [usize; 19],
    /// Passes by their count of `got` rows.
    rows: [usize; 5],
}

impl Counts {
    /// Compares the two marks and notes the number.
    #[track_caller]
    fn compare(&mut self, network: &[u8], plan: &[u8]) -> [usize; 16] {
        let answer = penthluk_compare::mark(network, plan);
        let expected = mark_numbers(&marker::mark(network, plan));
        assert_eq!(
            answer,
            expected,
            "{:?} {:?}",
            String::from_utf8_lossy(network),
            String::from_utf8_lossy(plan)
        );
        self.numbers[answer[0]] += 1;
        if answer[0] == 0 {
            self.rows[answer[3]] += 1;
        }
        answer
    }

    /// As `compare`, where the refusal is known.
    #[track_caller]
    fn compare_refused(&mut self, network: &[u8], plan: &[u8], refusal: &Refusal) {
        assert_eq!(self.compare(network, plan)[..2], refusal_numbers(refusal));
    }

    #[track_caller]
    fn at_least(&self, numbers: &[usize], least: usize) {
        assert!(numbers.iter().all(|&number| self.numbers[number] >= least), "{self:?}");
    }
}

/// Pairs of all kinds: every refusal of the network and of the plan comes, and passes with any
/// count of rows.
#[test]
fn generated_pairs() {
    let mut counts = Counts::default();
    for seed in 0..CASES {
        let case = case(seed);
        counts.compare(&case.network, &case.plan);
    }
    counts.at_least(&[0, 1, 2, 3, 4, 5, 6, 7, 8, 9, 14, 15, 16, 17], CASES as usize / 1_000);
    assert!(counts.rows.iter().all(|&count| count as u64 >= CASES / 2_000), "{counts:?}");
}

/// The same where the networks have RESET fields, and 18 comes too.
#[test]
fn generated_pairs_with_resets() {
    let mut counts = Counts::default();
    for seed in 0..RESET_CASES {
        let case = reset_case(seed);
        counts.compare(&case.network, &case.plan);
    }
    let numbers = [0, 1, 2, 3, 4, 5, 6, 7, 8, 9, 14, 15, 16, 17, 18];
    counts.at_least(&numbers, RESET_CASES as usize / 1_000);
    assert!(counts.rows.iter().all(|&count| count as u64 >= RESET_CASES / 2_000), "{counts:?}");
}

/// The same where the networks have registers up to 64 bits.
#[test]
fn generated_pairs_with_long_registers() {
    let mut counts = Counts::default();
    for seed in 0..LONG_CASES {
        let case = long_case(seed);
        counts.compare(&case.network, &case.plan);
    }
    let numbers = [0, 1, 2, 3, 4, 5, 6, 7, 8, 9, 14, 15, 16, 17, 18];
    counts.at_least(&numbers, LONG_CASES as usize / 2_000);
    assert!(counts.rows.iter().all(|&count| count as u64 >= LONG_CASES / 2_000), "{counts:?}");
}

/// A passed plan, and that plan with one change: a bit too many or too few, a bit or an address
/// turned, the last operations left out, a last configuration that is not valid.
#[test]
fn near_plans() {
    let random = &mut Random::new(1_001);
    let mut whole = Counts::default();
    let mut changed = [(); CHANGES.len()].map(|_| Counts::default());
    for _ in 0..NETWORKS {
        let text = draw_network(random).text();
        let Ok(network) = read_network(&text) else { continue };
        let plan = draw_plan(random, &network);
        if whole.compare(&text, &write_plan(&plan))[0] != 0 {
            continue;
        }
        for (change, counts) in CHANGES.into_iter().zip(&mut changed) {
            for _ in 0..3 {
                let Some((plan, expected)) = near(random, &network, &plan, change) else {
                    continue;
                };
                match expected {
                    Some(refusal) => counts.compare_refused(&text, &write_plan(&plan), &refusal),
                    None => _ = counts.compare(&text, &write_plan(&plan)),
                }
            }
        }
    }
    let [longer, shorter, bit, address, cut, bad_last] = &changed;
    whole.at_least(&[0, 15, 16, 17], 1_000);
    longer.at_least(&[15], 30_000);
    shorter.at_least(&[15], 30_000);
    bit.at_least(&[0, 15, 16, 17], 200);
    address.at_least(&[0, 15, 16, 17], 100);
    cut.at_least(&[0, 17], 15_000);
    bad_last.at_least(&[16], 2_000);
    assert!(bit.rows.iter().all(|&count| count >= 100), "{bit:?}");
}

/// Plan texts of wrong form in each way, for accepted networks; and networks with each fault,
/// beside a good plan text and beside a bad one.
#[test]
fn damaged_texts() {
    let random = &mut Random::new(1_002);
    let mut counts = Counts::default();
    for fault in PLAN_FAULTS {
        for _ in 0..DAMAGED {
            let text = draw_network(random).text();
            let Ok(network) = read_network(&text) else { continue };
            let operations = random.below(MAX_OPERATIONS);
            let plan = write_plan(&wander(random, &network, operations, 80));
            let (plan, refusal) = damage_plan(random, &plan, fault);
            counts.compare_refused(&text, &plan, &refusal);
        }
    }
    counts.at_least(&[14], 6 * DAMAGED as usize);
    for fault in FAULTS {
        for round in 0..DAMAGED / 4 {
            let (damaged, _) = damaged_with(random, &[fault]);
            let plan = [&b"csu\t0101\n"[..], b"csu\t", b"", b"csu\t\n"][round as usize % 4];
            match damaged.expected() {
                Some(refusal) => counts.compare_refused(&damaged.text(), plan, &refusal),
                None => _ = counts.compare(&damaged.text(), plan),
            }
        }
    }
    counts.at_least(&[1, 2, 3, 4, 5, 6, 7, 8, 9], DAMAGED as usize / 10);
}

/// Networks with RESET fields, with each fault, and plans one change away from a passed one, also for
/// networks with long registers.
#[test]
fn damaged_and_near_with_resets() {
    let random = &mut Random::new(1_004);
    let mut counts = Counts::default();
    for fault in all_faults() {
        for _ in 0..DAMAGED / 4 {
            let (damaged, _) = reset_damaged_with(random, &[fault]);
            match damaged.expected() {
                Some(refusal) => counts.compare_refused(&damaged.text(), b"csu\t0101\n", &refusal),
                None => _ = counts.compare(&damaged.text(), b"csu\t0101\n"),
            }
        }
    }
    counts.at_least(&[1, 2, 3, 4, 5, 6, 7, 8, 9, 18], DAMAGED as usize / 10);
    let mut counts = Counts::default();
    for round in 0..NETWORKS / 3 {
        let draw = [draw_reset_network, draw_long_network][round as usize % 2];
        let text = draw(random).text();
        let Ok(network) = read_network(&text) else { continue };
        let plan = draw_plan(random, &network);
        if counts.compare(&text, &write_plan(&plan))[0] != 0 {
            continue;
        }
        for change in CHANGES {
            match near(random, &network, &plan, change) {
                Some((plan, Some(refusal))) => {
                    counts.compare_refused(&text, &write_plan(&plan), &refusal)
                }
                Some((plan, None)) => _ = counts.compare(&text, &write_plan(&plan)),
                None => {}
            }
        }
    }
    counts.at_least(&[0, 15, 16, 17], 500);
}

/// Networks and plans at the limits: 128 nodes, 4,000 bits, sixteen operations, 64,080 bytes.
#[test]
fn large_texts() {
    let random = &mut Random::new(1_003);
    let mut counts = Counts::default();
    for _ in 0..LARGE {
        let long = [longest_row(random).text(), longest_choices(random).text()];
        let others = [full().text(), held_chain(random).text(), large(random).text()];
        for text in long.into_iter().chain(others) {
            let Ok(network) = read_network(&text) else { continue };
            let plan = write_plan(&wander(random, &network, MAX_OPERATIONS, 95));
            counts.compare(&text, &plan);
            counts.compare(&text, &plan[..plan.len() - 1]);
            counts.compare(&text, &[&plan[..], b"csu\t\n"].concat());
            counts.compare(&text, &draw_edge_plan(random));
        }
        counts.compare(&draw_edge_network(random), &draw_edge_plan(random));
    }
    counts.at_least(&[0, 14, 15, 16, 17], 200);
    counts.at_least(&[3, 6], 20);
    assert!(counts.rows[2] >= 200, "{counts:?}");
}

/// The same with RESET fields.
#[test]
fn large_texts_with_resets() {
    let random = &mut Random::new(1_005);
    let mut counts = Counts::default();
    for _ in 0..LARGE / 3 {
        let mut drawn = large(random);
        give_resets(random, &mut drawn);
        for text in [held_reset_chain(random).text(), drawn.text()] {
            let Ok(network) = read_network(&text) else { continue };
            let plan = write_plan(&wander(random, &network, MAX_OPERATIONS, 95));
            counts.compare(&text, &plan);
            counts.compare(&text, &draw_edge_plan(random));
        }
        counts.compare(&draw_edge_reset(random), &draw_edge_plan(random));
    }
    counts.at_least(&[0, 14, 15], 50);
    counts.at_least(&[3, 6, 18], 5);
}

/// The drawn networks with every short plan.
#[test]
fn every_short_plan() {
    let mut counts = Counts::default();
    each_short_plan(|network, plan| _ = counts.compare(network, plan));
    counts.at_least(&[0, 14, 15, 16, 17], 5);
    assert!(counts.rows[2] > 0, "{counts:?}");
}
