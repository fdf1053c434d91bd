//! "In a valid configuration its sum at each node met must be proved to be the count of path bits from
//! scan-in up to and with that node".

mod common;

use std::collections::BTreeMap;

use common::text;
use penthluk_reference::generate::cases::{case, Case};
use penthluk_reference::generate::edges::held_chain;
use penthluk_reference::generate::large::{full, large};
use penthluk_reference::generate::long_cases::long_case;
use penthluk_reference::generate::long_registers::{longest_choices, longest_row};
use penthluk_reference::generate::path_sum_forms::path_sum_forms;
use penthluk_reference::generate::plans::{configurations, wander};
use penthluk_reference::generate::random::Random;
use penthluk_reference::generate::reset_cases::reset_case;
use penthluk_reference::network::{Configuration, Network, Node};
use penthluk_reference::path::{path_length, place_of, walk};
use penthluk_reference::path_sums::{bits_up_to, nodes_met, sums};
use penthluk_reference::plan_text::parse_plan;
use penthluk_reference::reader::read_network;

/// The nodes met from the start, each with the count of path bits up to and with it.
fn counted(lines: &[&str]) -> Vec<(usize, usize)> {
    let network = read_network(&text(lines)).expect("it is accepted");
    let met = nodes_met(&network, &network.start);
    let counts: Vec<usize> = met.iter().map(|&node| bits_up_to(&network, &met, node)).collect();
    assert_eq!(sums(&network, &network.start), Some(counts.clone()));
    met.into_iter().zip(counts).collect()
}

/// A of document 01, closed and with a RESET that opens it.
#[test]
fn closed_and_open() {
    let network = |steering: &str| counted(&["seg 0 4 s", "mux 3 0 0 1", steering, "out 3"]);
    assert_eq!(network("seg 2 1 s"), [(3, 1), (2, 0)]);
    assert_eq!(network("seg 2 1 s 1"), [(3, 5), (2, 4), (1, 4)]);
}

/// Segments alone count from scan-in, whatever order their lengths have.
#[test]
fn row_of_segments() {
    let nodes = ["seg 0 64 p", "seg 1 1 s", "seg 2 32 p", "seg 0 5 s"];
    let network = |out: &str| counted(&[&nodes[..], &[out]].concat());
    assert_eq!(network("out 3"), [(3, 97), (2, 65), (1, 64)]);
    assert_eq!(network("out 2"), [(2, 65), (1, 64)]);
    assert_eq!(network("out 4"), [(4, 5)]);
    assert_eq!(network("out 0"), []);
}

/// Segment 1 steers all three multiplexers; the last one feeds scan-out and has four inputs.
#[test]
fn multiplexers_in_a_row() {
    let nodes =
        ["seg 0 2 s", "seg 1 3 p", "mux 1 0 1 2", "mux 1 1 0 3", "mux 1 0 4 0 4 3", "out 5"];
    let network = |hold: &str| counted(&[&nodes[..], &[hold]].concat());
    assert_eq!(network("hold 1 00"), [(5, 0), (4, 0)]);
    assert_eq!(network("hold 1 01"), [(5, 0)]);
    assert_eq!(network("hold 1 10"), [(5, 2), (4, 2), (3, 2), (1, 2)]);
    assert_eq!(network("hold 1 11"), [(5, 5), (3, 5), (2, 5), (1, 2)]);
}

/// Segments 2 and 3 are as long as each other; the one that is passed by does not count.
#[test]
fn branches_of_equal_length() {
    let nodes = ["seg 0 3 s", "seg 1 4 p", "seg 1 4 s", "mux 5 0 2 3", "seg 4 2 s", "out 5"];
    let network = |hold: &str| counted(&[&nodes[..], &[hold]].concat());
    assert_eq!(network("hold 5 00"), [(5, 9), (4, 7), (2, 7), (1, 3)]);
    assert_eq!(network("hold 5 01"), [(5, 9), (4, 7), (3, 7), (1, 3)]);
}

/// Three inputs, of which one is scan-in and one passes nodes of higher numbers by.
#[test]
fn three_inputs() {
    let nodes = ["seg 0 6 s", "seg 0 7 s", "seg 2 8 p", "mux 1 4 3 1 0", "seg 4 9 p", "out 5"];
    let network = |hold: &str| counted(&[&nodes[..], &[hold]].concat());
    assert_eq!(network("hold 1 00XXXX"), [(5, 24), (4, 15), (3, 15), (2, 7)]);
    assert_eq!(network("hold 1 01XXXX"), [(5, 15), (4, 6), (1, 6)]);
    assert_eq!(network("hold 1 10XXXX"), [(5, 9), (4, 0)]);
}

/// Where a multiplexer stops the walk, it is the last node met, and there is no sum.
#[test]
fn walk_that_stops() {
    let lines = ["seg 0 2 s", "mux 1 0 0 1 1", "seg 2 3 p", "mux 1 1 3 0", "out 4"];
    let network = read_network(&text(&lines)).expect("it is accepted");
    let (zero, one) = (Some(false), Some(true));
    for (bits, met, valid) in [
        ([zero, zero], &[4, 3, 2][..], true),
        ([one, zero], &[4, 3, 2, 1], true),
        ([None, zero], &[4, 3, 2], false),
        ([zero, None], &[4], false),
        ([one, one], &[4], true),
        ([None, one], &[4], true),
    ] {
        let configuration = vec![bits.to_vec(), vec![], vec![None; 3], vec![]];
        assert_eq!(nodes_met(&network, &configuration), met, "{bits:?}");
        assert_eq!(sums(&network, &configuration).is_some(), valid, "{bits:?}");
    }
}

/// How many walks at least have each form: of the cases, and of the networks near the limits.
const WANTED: [(&str, usize, usize); 17] = [
    ("walk that stops", 290, 40),
    ("no node met", 800, 0),
    ("segment met", 45_000, 4_500),
    ("multiplexer met", 40_000, 2_700),
    ("multiplexer of two inputs met", 35_000, 900),
    ("multiplexer of three inputs met", 8_000, 900),
    ("multiplexer of four inputs met", 9_500, 2_600),
    ("128 nodes met", 950, 1_900),
    ("node passed by", 40_000, 1_800),
    ("node that is not before scan-out", 3_700, 0),
    ("multiplexer that feeds scan-out", 24_000, 900),
    ("multiplexer that leads to scan-in", 9_000, 200),
    ("two multiplexers in a row", 18_500, 1_300),
    ("other input with the same sum", 11_000, 800),
    ("same sum at three nodes", 17_500, 1_300),
    ("sum above 255", 3_100, 4_500),
    ("sum of 4,000", 900, 2_700),
];

type Counts = BTreeMap<&'static str, usize>;

/// Each form comes at least so often.
fn check_counts(counts: &Counts, least: impl Fn(&(&str, usize, usize)) -> usize) {
    assert!(counts.keys().all(|form| WANTED.iter().any(|(wanted, _, _)| wanted == form)));
    for wanted in &WANTED {
        let count = counts.get(wanted.0).copied().unwrap_or(0);
        assert!(count >= least(wanted), "{}: {count} times, {counts:#?}", wanted.0);
    }
}

/// The laws of the counts in every configuration. Counts the forms.
fn check(network: &Network, operations: &[Vec<bool>], counts: &mut Counts) {
    for configuration in configurations(network, operations) {
        check_configuration(network, &configuration);
        for form in path_sum_forms(network, &configuration) {
            *counts.entry(form).or_default() += 1;
        }
    }
}

fn check_configuration(network: &Network, configuration: &Configuration) {
    let met = nodes_met(network, configuration);
    let walked = walk(network, configuration);
    let counts: Vec<usize> = met.iter().map(|&node| bits_up_to(network, &met, node)).collect();
    assert_eq!(sums(network, configuration), walked.is_ok().then(|| counts.clone()));
    let Ok(path) = walked else {
        assert_eq!(walked.err(), met.last().copied());
        return;
    };
    assert!(met.iter().filter(|&&node| network.len(node) > 0).eq(&path));
    // The count at the node that feeds scan-out is the path's length.
    let behind = [&counts[..], &[0]].concat();
    assert_eq!(behind[0], path_length(network, &path));
    for (index, &node) in met.iter().enumerate() {
        let own = match network.nodes[node - 1] {
            Node::Segment { len, .. } => {
                // The other bits of the path are the places before its bit 0.
                let place = place_of(network, &path, node).expect("it is on the path");
                assert_eq!(place + counts[index], behind[0]);
                len
            }
            Node::Multiplexer { .. } => 0,
        };
        assert_eq!(behind[index], own + behind[index + 1], "node {node}");
    }
}

const CASES: u64 = 8_000;

#[test]
fn generated_cases() {
    let mut counts = Counts::new();
    for seed in 0..CASES {
        for Case { network, plan, .. } in [case(seed), reset_case(seed), long_case(seed)] {
            if let Ok(network) = read_network(&network) {
                check(&network, &parse_plan(&plan).unwrap_or_default(), &mut counts);
            }
        }
    }
    check_counts(&counts, |(_, least, _)| *least);
}

const LARGE: u64 = 400;

#[test]
fn networks_near_the_limits() {
    let mut counts = Counts::new();
    for seed in 0..LARGE {
        let random = &mut Random::new(seed);
        let longest = if random.bit() { longest_row(random) } else { longest_choices(random) };
        for draft in [full(), large(random), longest, held_chain(random)] {
            if let Ok(network) = read_network(&draft.text()) {
                let operations = wander(random, &network, 3, 80);
                check(&network, &operations, &mut counts);
            }
        }
    }
    check_counts(&counts, |(_, _, least)| *least);
}
