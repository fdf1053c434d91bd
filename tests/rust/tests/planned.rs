//! The planner's plans pass the marker, and what the pass says holds on the test frame.

mod common;

use common::{accepted, plan_text};
use penthluk_reference::generate::cases::draw_network;
use penthluk_reference::generate::large::{full, large};
use penthluk_reference::generate::long_cases::draw_long_network;
use penthluk_reference::generate::long_registers::longest_choices;
use penthluk_reference::generate::maze::gray;
use penthluk_reference::generate::random::Random;
use penthluk_reference::generate::reset_cases::{
    draw_reset_network, give_resets, held_reset_chain,
};
use penthluk_reference::generate::rounds::many_rounds;
use penthluk_reference::limits::{MAX_NODES, MAX_OPERATIONS, MAX_STEERING_BITS, MAX_TARGETS};
use penthluk_reference::marker::{mark, Pass};
use penthluk_reference::play::check_pass;
use penthluk_reference::reader::read_network;
use penthluk_reference::refusal::{NO_PLAN, STEERING_COUNT};
use penthluk_reference::steering::steering_bits;

/// Marks and plays the planner's plan, with several draws of all free bits.
fn check_planned(network_text: &[u8], random: &mut Random) -> Option<Pass> {
    let plan = match plan_text(network_text) {
        Ok(plan) => plan,
        Err(refusal) => {
            assert!([STEERING_COUNT, NO_PLAN].contains(&refusal.number), "{refusal:?}");
            return None;
        }
    };
    let pass = mark(network_text, &plan).expect("the planner's plan passes");
    let network = read_network(network_text).expect("the planner read it");
    assert_eq!(pass.clocks, plan.len());
    for _ in 0..3 {
        let played = check_pass(&network, &plan, &pass, &mut || random.bit());
        played.unwrap_or_else(|error| panic!("{error}: {}", String::from_utf8_lossy(network_text)));
    }
    Some(pass)
}

#[test]
fn generated_networks() {
    let random = &mut Random::new(101);
    let mut plans_of_length = [0; MAX_OPERATIONS + 1];
    let mut gots = 0;
    for _ in 0..6_000 {
        let (text, _) = accepted(random, |random| draw_network(random).text());
        if let Some(pass) = check_planned(&text, random) {
            plans_of_length[pass.operations] += 1;
            gots += pass.gots.len();
        }
    }
    assert!(plans_of_length.iter().all(|&count| count > 0), "{plans_of_length:?}");
    assert!(plans_of_length[2] > 500 && plans_of_length[3] > 100, "{plans_of_length:?}");
    assert!(gots > 2_000, "{gots}");
}

#[test]
fn networks_with_resets() {
    let random = &mut Random::new(105);
    let mut plans_of_length = [0; MAX_OPERATIONS + 1];
    for _ in 0..6_000 {
        let (text, _) = accepted(random, |random| draw_reset_network(random).text());
        if let Some(pass) = check_planned(&text, random) {
            plans_of_length[pass.operations] += 1;
        }
    }
    assert!(plans_of_length[..9].iter().all(|&count| count > 0), "{plans_of_length:?}");
    assert!(plans_of_length[1] > 500 && plans_of_length[2] > 500, "{plans_of_length:?}");
    assert!(check_planned(&held_reset_chain(random).text(), random).is_some());
}

#[test]
fn networks_with_long_registers() {
    let random = &mut Random::new(106);
    let mut plans_of_length = [0; MAX_OPERATIONS + 1];
    for _ in 0..3_000 {
        let (text, _) = accepted(random, |random| draw_long_network(random).text());
        if let Some(pass) = check_planned(&text, random) {
            plans_of_length[pass.operations] += 1;
        }
    }
    assert!(plans_of_length[..6].iter().all(|&count| count > 10), "{plans_of_length:?}");
    assert!(plans_of_length[1] > 500 && plans_of_length[2] > 500, "{plans_of_length:?}");
    let mut passes = 0;
    for _ in 0..20 {
        let mut draft = longest_choices(random);
        draft.draw_targets(random, 10);
        passes += usize::from(check_planned(&draft.text(), random).is_some());
    }
    assert!(passes > 15, "{passes}");
}

#[test]
fn large_networks() {
    let random = &mut Random::new(102);
    let mut passes = 0;
    for _ in 0..60 {
        let (text, _) = accepted(random, |random| large(random).text());
        passes += usize::from(check_planned(&text, random).is_some());
    }
    assert!(passes > 20, "{passes}");
    let mut passes = 0;
    for _ in 0..60 {
        let (text, _) = accepted(random, |random| {
            let mut draft = large(random);
            give_resets(random, &mut draft);
            draft.text()
        });
        passes += usize::from(check_planned(&text, random).is_some());
    }
    assert!(passes > 20, "with RESET: {passes}");
    assert!(check_planned(&full().text(), random).is_some());
}

/// The network with much to search is at all limits of the planner but that of bits.
#[test]
fn many_rounds_of_search() {
    let text = many_rounds().text();
    let network = read_network(&text).expect("it is sound");
    assert_eq!(network.nodes.len(), MAX_NODES);
    assert_eq!(network.targets.len(), MAX_TARGETS);
    assert_eq!(steering_bits(&network.nodes).len(), MAX_STEERING_BITS);
    let pass = check_planned(&text, &mut Random::new(104)).expect("there is a plan");
    assert_eq!(pass.operations, MAX_OPERATIONS);
}

#[test]
fn every_count_of_operations() {
    let random = &mut Random::new(103);
    for operations in 1..=MAX_OPERATIONS {
        let text = gray(operations, Some("10110"), &[3, 32]).text();
        let pass = check_planned(&text, random).expect("there is a plan");
        assert_eq!(pass.operations, operations);
    }
}
