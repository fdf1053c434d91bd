//! The proved call that carries a setting on answers as the plain Rust version does and leaves the same
//! bytes in the lent buffer, written or not.

mod short_plans;

use penthluk_compare::carry;
use penthluk_compare::expected::{count_numbers, refusal_numbers};
use penthluk_compare::lent::Lent;
use penthluk_reference::carry::{self as plain, carried};
use penthluk_reference::generate::carried::{lines_where, next_text, without_targets};
use penthluk_reference::generate::carry_cases::{carry_case, carry_chain, carry_random};
use penthluk_reference::generate::cases::{case, damaged_with};
use penthluk_reference::generate::edges::{draw_edge_network, draw_edge_plan, held_chain};
use penthluk_reference::generate::exercises::{draw_exercise, Exercise};
use penthluk_reference::generate::faults::{all_faults, FAULTS};
use penthluk_reference::generate::large::{chain, full, large};
use penthluk_reference::generate::long_cases::long_case;
use penthluk_reference::generate::long_registers::{longest_choices, longest_row};
use penthluk_reference::generate::near::{near, CHANGES};
use penthluk_reference::generate::plan_damage::{damage_plan, PLAN_FAULTS};
use penthluk_reference::generate::plans::wander;
use penthluk_reference::generate::random::Random;
use penthluk_reference::generate::reset_cases::{
    draw_edge_reset, give_resets, held_reset_chain, reset_case, reset_damaged_with,
};
use penthluk_reference::limits::{
    MAX_HOLD_BYTES, MAX_NETWORK_BITS, MAX_NODES, MAX_OPERATIONS, MAX_PLAN_BYTES,
};
use penthluk_reference::plan_text::{parse_plan, write_plan};
use penthluk_reference::reader::read_network;
use short_plans::each_short_plan;

/// Pairs of all kinds, and those of the other calls.
const CASES: u64 = 25_000;
const OTHER_CASES: u64 = 15_000;
/// Exercises in turn.
const CHAINS: u64 = 5_000;
/// Exercises whose plan is changed in each way.
const NEAR: u64 = 3_000;
/// Damaged texts of each kind.
const DAMAGED: u64 = 200;
/// Networks near the limits.
const LARGE: u64 = 60;

/// How often each number came; 0 is a pass.
#[derive(Default, Debug)]
struct Counts([usize; 19]);

impl Counts {
    /// Calls both with a buffer of this length and compares the answers and all bytes.
    #[track_caller]
    fn compare(&mut self, network: &[u8], plan: &[u8], length: usize) -> [usize; 2] {
        let shown = || [network, plan].map(|text| String::from_utf8_lossy(text).into_owned());
        let mut holds = Lent::bytes(length);
        let mut plain_holds = holds.clone();
        let answer = carry(network, plan, holds.buffer());
        let expected = count_numbers(&plain::carry(network, plan, plain_holds.buffer()));
        assert_eq!(answer, expected, "{length}, {:?}", shown());
        assert!(holds == plain_holds, "{length}, {:?}", shown());
        if answer[0] != 0 {
            assert!(holds == Lent::bytes(length), "{length}, {:?}", shown());
        }
        self.0[answer[0]] += 1;
        answer
    }

    /// Lengths: none, one too few, as many as needed, some more, and enough for any network.
    #[track_caller]
    fn compare_lengths(&mut self, network: &[u8], plan: &[u8]) {
        let needed = carried(network, plan).map_or(30, |lines| lines.len());
        let mut lengths = vec![0, needed.saturating_sub(1), needed, needed + 7, MAX_HOLD_BYTES];
        lengths.dedup();
        for length in lengths {
            self.compare(network, plan, length);
        }
    }

    /// Where the refusal is known, it comes whatever the length is.
    #[track_caller]
    fn compare_refused(&mut self, network: &[u8], plan: &[u8], refusal: [usize; 2]) {
        for length in [0, 40, MAX_HOLD_BYTES] {
            assert_eq!(self.compare(network, plan, length), refusal);
        }
    }

    #[track_caller]
    fn at_least(&self, numbers: &[usize], least: usize) {
        assert!(numbers.iter().all(|&number| self.0[number] >= least), "{self:?}");
    }
}

/// Pairs of all kinds with buffers of all lengths around what is needed.
#[test]
fn generated_pairs() {
    let mut counts = Counts::default();
    for seed in 0..CASES {
        let case = carry_case(seed);
        counts.compare_lengths(&case.network, &case.plan);
    }
    counts.at_least(&[0, 13], CASES as usize / 2);
    counts.at_least(&[1, 2, 3, 4, 5, 6, 7, 8, 9, 14, 15, 16, 17, 18], CASES as usize / 200);
}

/// The pairs that the other calls are compared on.
#[test]
fn pairs_of_other_calls() {
    let mut counts = Counts::default();
    for seed in 0..OTHER_CASES {
        for case in [case(seed), reset_case(seed), long_case(seed)] {
            counts.compare(&case.network, &case.plan, MAX_HOLD_BYTES);
            counts.compare(&case.network, &case.plan, case.plan_room.min(MAX_HOLD_BYTES));
        }
    }
    let numbers = [0, 1, 2, 3, 4, 5, 6, 7, 8, 9, 13, 14, 15, 16, 17, 18];
    counts.at_least(&numbers, OTHER_CASES as usize / 500);
}

/// Exercises in turn, the text that goes on without operations, and the joined plan.
#[test]
fn exercises_in_turn() {
    let mut counts = Counts::default();
    let mut joined_passes = 0;
    for seed in 0..CHAINS {
        let chain = carry_chain(seed);
        for Exercise { network, plan } in &chain {
            counts.compare_lengths(network, plan);
        }
        for turn in chain.windows(2) {
            let [first, second] = turn else { continue };
            counts.compare_lengths(&next_text(first), b"");
            let reads = lines_where(&first.network, |word| word != b"write");
            let joined = [&first.plan[..], &second.plan].concat();
            let answer = counts.compare(&reads, &joined, MAX_HOLD_BYTES);
            joined_passes += usize::from(answer[0] == 0);
        }
    }
    counts.at_least(&[0, 13], 3 * CHAINS as usize);
    counts.at_least(&[6, 7, 8, 15, 16, 17], CHAINS as usize / 50);
    assert!(joined_passes > CHAINS as usize, "{joined_passes}");
}

/// A passed plan with one change: a bit too many or too few, a bit or an address turned, the last
/// operations left out, a last configuration that is not valid.
#[test]
fn near_plans() {
    let mut counts = Counts::default();
    for seed in 0..NEAR {
        let random = &mut carry_random(seed);
        let exercise = draw_exercise(random);
        let network = read_network(&exercise.network).expect("it is accepted");
        let plan = parse_plan(&exercise.plan).expect("it is of good form");
        for change in CHANGES {
            match near(random, &network, &plan, change) {
                Some((plan, Some(refusal))) => {
                    let refusal = refusal_numbers(&refusal);
                    counts.compare_refused(&exercise.network, &write_plan(&plan), refusal);
                }
                Some((plan, None)) => counts.compare_lengths(&exercise.network, &write_plan(&plan)),
                None => {}
            }
        }
    }
    counts.at_least(&[0, 13, 15, 17], NEAR as usize / 2);
    counts.at_least(&[16], NEAR as usize / 10);
}

/// Plan texts of wrong form in each way, and networks with each fault, with RESET fields and without.
#[test]
fn damaged_texts() {
    let random = &mut Random::new(6_001);
    let mut counts = Counts::default();
    for fault in PLAN_FAULTS {
        for _ in 0..DAMAGED {
            let exercise = draw_exercise(random);
            let (plan, refusal) = damage_plan(random, &exercise.plan, fault);
            counts.compare_refused(&exercise.network, &plan, refusal_numbers(&refusal));
        }
    }
    let old = FAULTS.map(|fault| (fault, false));
    let all = all_faults().into_iter().map(|fault| (fault, true));
    for (fault, reset) in old.into_iter().chain(all) {
        for round in 0..DAMAGED {
            let (damaged, _) = match reset {
                true => reset_damaged_with(random, &[fault]),
                false => damaged_with(random, &[fault]),
            };
            let plan = [&b"csu\t0101\n"[..], b"csu\t", b"", b"csu\t\n"][round as usize % 4];
            match damaged.expected() {
                Some(refusal) => {
                    counts.compare_refused(&damaged.text(), plan, refusal_numbers(&refusal))
                }
                None => counts.compare_lengths(&damaged.text(), plan),
            }
        }
    }
    counts.at_least(&[1, 2, 3, 4, 5, 6, 7, 8, 9, 14, 18], DAMAGED as usize);
}

/// Networks and plans at the limits: 128 nodes, 4,000 bits, sixteen operations, 64,080 bytes.
#[test]
fn large_texts() {
    let random = &mut Random::new(6_002);
    let mut counts = Counts::default();
    let mut most = 0;
    for _ in 0..LARGE {
        let mut drawn = [large(random), large(random)];
        give_resets(random, &mut drawn[1]);
        let [old, new] = drawn;
        let row = chain(MAX_NODES, MAX_NETWORK_BITS);
        let [long, choices] = [longest_row(random), longest_choices(random)];
        let held = [held_chain(random), held_reset_chain(random)];
        for draft in [row, long, choices, full(), old, new].into_iter().chain(held) {
            let text = draft.text();
            let Ok(network) = read_network(&text) else { continue };
            let plan = write_plan(&wander(random, &network, MAX_OPERATIONS, 95));
            counts.compare_lengths(&text, &plan);
            counts.compare(&text, &plan[..plan.len() - 1], MAX_HOLD_BYTES);
            counts.compare(&text, &draw_edge_plan(random), MAX_HOLD_BYTES);
            let answer = counts.compare(&without_targets(&text), b"", MAX_HOLD_BYTES);
            most = most.max(answer[1]);
        }
        counts.compare(&draw_edge_network(random), &draw_edge_plan(random), MAX_HOLD_BYTES);
        counts.compare(&draw_edge_reset(random), &draw_edge_plan(random), MAX_HOLD_BYTES);
    }
    counts.at_least(&[0, 13, 14, 15], LARGE as usize);
    counts.at_least(&[3, 6], LARGE as usize / 10);
    // 128 lines of 7 bytes and a number, 4,000 bits
    assert_eq!(most, 7 * 128 + 9 + 90 * 2 + 29 * 3 + 4_000);
}

/// The drawn networks with every short plan.
#[test]
fn every_short_plan() {
    let mut counts = Counts::default();
    each_short_plan(|network, plan| counts.compare_lengths(network, plan));
    counts.at_least(&[0, 13, 14, 15, 16, 17], 5);
}

/// The answer is the same whatever stands in the buffer, and the buffer may be of any length.
#[test]
fn buffer_is_not_read() {
    for seed in 0..2_000 {
        let Exercise { network, plan } = carry_case(seed);
        let mut lent = Lent::bytes(MAX_PLAN_BYTES);
        let mut zeros = vec![0; MAX_PLAN_BYTES];
        let answer = carry(&network, &plan, lent.buffer());
        assert_eq!(carry(&network, &plan, &mut zeros), answer);
        if answer[0] == 0 {
            assert_eq!(lent.buffer()[..answer[1]], zeros[..answer[1]]);
        }
    }
}
