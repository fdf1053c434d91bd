//! "The planner gives the fewest operations", over all valid plans, and of the filled plans with
//! so many the first in order.

mod common;

use common::{accepted, plan_text};
use penthluk_reference::brute::{first_filled_plan, least_operations};
use penthluk_reference::generate::long_registers::stretch;
use penthluk_reference::generate::maze::{gray, maze, GrayWalk};
use penthluk_reference::generate::random::Random;
use penthluk_reference::generate::reset_cases::give_resets;
use penthluk_reference::generate::sib::{sib_chain, sib_tree, Size};
use penthluk_reference::generate::tiny::tiny;
use penthluk_reference::generate::unknown::make_unknown;
use penthluk_reference::limits::{MAX_OPERATIONS, MAX_SEGMENT_BITS, MAX_STEERING_BITS};
use penthluk_reference::network::Network;
use penthluk_reference::path::walk;
use penthluk_reference::plan_text::{parse_plan, write_plan};
use penthluk_reference::reader::read_network;
use penthluk_reference::refusal::{Refusal, NO_PLAN};
use penthluk_reference::steering::steering_bits;

/// The largest network that is tried with every bit string.
const MOST_BITS: usize = 9;

/// Compares the planner with the searches that try everything.
fn compare(text: &[u8], network: &Network) -> Option<usize> {
    let least = least_operations(network);
    let expected = match least {
        Some(operations) => {
            let plan = first_filled_plan(network, operations);
            Ok(write_plan(&plan.expect("the filling costs no operation")))
        }
        None => Err(Refusal::new(NO_PLAN, 0)),
    };
    assert_eq!(plan_text(text), expected, "{}", String::from_utf8_lossy(text));
    least
}

fn is_small(network: &Network) -> bool {
    network.bits() <= MOST_BITS && steering_bits(&network.nodes).len() <= MAX_STEERING_BITS
}

/// What came of many comparisons.
#[derive(Default, Debug)]
struct Tally {
    /// How many networks had each least number.
    least: [usize; MAX_OPERATIONS + 1],
    /// How many had no plan.
    none: usize,
    /// How many with a plan of some operations started with an unknown steering bit.
    unknown_steering: usize,
    /// How many with a plan start from another path than with every steering bit 0.
    other_path: usize,
}

fn compare_many(seed: u64, networks: usize, draw: impl Fn(&mut Random) -> Vec<u8>) -> Tally {
    let random = &mut Random::new(seed);
    let mut tally = Tally::default();
    let mut compared = 0;
    while compared < networks {
        let (text, network) = accepted(random, &draw);
        if !is_small(&network) {
            continue;
        }
        compared += 1;
        let steering = steering_bits(&network.nodes);
        let unknown = steering.iter().any(|&(seg, bit)| network.start[seg - 1][bit].is_none());
        match compare(&text, &network) {
            Some(operations) => {
                tally.least[operations] += 1;
                tally.other_path += usize::from(has_other_path(&network));
                tally.unknown_steering += usize::from(unknown && operations > 0);
            }
            None => tally.none += 1,
        }
    }
    tally
}

/// Whether the start's path is another one with every steering bit 0.
fn has_other_path(network: &Network) -> bool {
    let mut zeros = network.start.clone();
    for (segment, bit) in steering_bits(&network.nodes) {
        zeros[segment - 1][bit] = Some(false);
    }
    walk(network, &zeros) != walk(network, &network.start)
}

#[test]
fn tiny_networks() {
    let tally = compare_many(301, 40_000, |random| tiny(random, 7).text());
    assert!(tally.least[..4].iter().all(|&count| count > 100), "{tally:?}");
    assert!(tally.none > 3_000, "{tally:?}");
}

#[test]
fn mazes() {
    let tally = compare_many(302, 30_000, |random| {
        let depth = random.between(1, 4);
        maze(random, depth, 2).text()
    });
    assert!(tally.least[..7].iter().all(|&count| count > 20), "{tally:?}");
    assert!(tally.none > 3_000, "{tally:?}");
}

#[test]
fn sib_networks() {
    let tally = compare_many(303, 6_000, |random| {
        let size = Size { depth: 4, sibs: random.between(1, 4), len: 2 };
        if random.bit() {
            sib_chain(random, size).text()
        } else {
            sib_tree(random, size).text()
        }
    });
    assert!(tally.least[..6].iter().all(|&count| count > 20), "{tally:?}");
    assert!(tally.none > 10, "{tally:?}");
}

#[test]
fn networks_with_unknown_steering_bits() {
    let tally = compare_many(304, 30_000, |random| {
        let mut draft = if random.bit() { tiny(random, 8) } else { maze(random, 3, 1) };
        make_unknown(random, &mut draft);
        draft.text()
    });
    assert!(tally.unknown_steering > 1_000, "{tally:?}");
    assert!(tally.least[..5].iter().all(|&count| count > 20), "{tally:?}");
}

/// RESET fields that open branches at the start or leave steering bits unknown, and `hold` lines over
/// them.
#[test]
fn networks_with_resets() {
    let tally = compare_many(305, 30_000, |random| {
        let mut draft = match random.below(4) {
            0 | 1 => tiny(random, 8),
            2 => maze(random, 3, 1),
            _ => {
                let sibs = random.between(1, 4);
                sib_tree(random, Size { depth: 4, sibs, len: 2 })
            }
        };
        if random.bit() {
            make_unknown(random, &mut draft);
        }
        give_resets(random, &mut draft);
        draft.text()
    });
    assert!(tally.unknown_steering > 700 && tally.other_path > 2_000, "{tally:?}");
    assert!(tally.least[..6].iter().all(|&count| count > 20), "{tally:?}");
    assert!(tally.none > 2_000, "{tally:?}");
}

/// A network with longer registers, whose paths lead over the same segments, needs as many operations as
/// the short one.
#[test]
fn networks_with_long_registers() {
    let random = &mut Random::new(306);
    let mut least = [0; 5];
    let (mut none, mut upper) = (0, 0);
    for _ in 0..8_000 {
        let mut draft = if random.bit() { tiny(random, 7) } else { maze(random, 3, 1) };
        if random.bit() {
            give_resets(random, &mut draft);
        }
        let Ok(short) = read_network(&draft.text()) else { continue };
        if !is_small(&short) {
            continue;
        }
        stretch(random, &mut draft, MAX_SEGMENT_BITS);
        let text = draft.text();
        let long = read_network(&text).expect("it is accepted too");
        assert_eq!(walk(&long, &long.start), walk(&short, &short.start));
        let planned = plan_text(&text).and_then(|plan| parse_plan(&plan));
        let operations = planned.map(|plan| plan.len());
        let expected = least_operations(&short).ok_or(Refusal::new(NO_PLAN, 0));
        assert_eq!(operations, expected, "{}", String::from_utf8_lossy(&text));
        upper += usize::from(steering_bits(&long.nodes).iter().any(|&(_, bit)| bit >= 32));
        match expected {
            Ok(count @ 0..=4) => least[count] += 1,
            Ok(_) => {}
            Err(_) => none += 1,
        }
    }
    assert!(upper > 3_000 && none > 500, "{upper}, {none}");
    assert!(least.iter().all(|&count| count > 20), "{least:?}");
}

/// Every least number from 1 to 16, and 17, which is refused.
#[test]
fn gray_walks() {
    for operations in 1..=MAX_OPERATIONS + 1 {
        for write in [None, Some("1"), Some("01")] {
            let text = gray(operations, write, &[]).text();
            let network = read_network(&text).expect("it is sound");
            let least = compare(&text, &network);
            assert_eq!(least, (operations <= MAX_OPERATIONS).then_some(operations));
        }
    }
}

/// The same with three more targets on the way.
#[test]
fn gray_walks_with_stops() {
    for operations in 5..=MAX_OPERATIONS + 1 {
        let stops = [0, operations / 2, operations - 2];
        let walk = GrayWalk { bits: 5, operations, write: Some("1"), stops: &stops, always: &[] };
        let text = walk.draft().text();
        let network = read_network(&text).expect("it is sound");
        let least = compare(&text, &network);
        assert_eq!(least, (operations <= MAX_OPERATIONS).then_some(operations));
    }
}
