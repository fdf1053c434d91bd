//! Marks of plans of all kinds hold on the test frame.

mod common;

use common::{accepted, refused};
use penthluk_reference::clocks::write_clocks;
use penthluk_reference::controller::State;
use penthluk_reference::generate::cases::{draw_network, draw_plan};
use penthluk_reference::generate::exercises::draw_exercise;
use penthluk_reference::generate::long_cases::draw_long_network;
use penthluk_reference::generate::long_registers::longest_row;
use penthluk_reference::generate::near::{near, Change, CHANGES};
use penthluk_reference::generate::plans::wander;
use penthluk_reference::generate::random::Random;
use penthluk_reference::generate::reset_cases::draw_reset_network;
use penthluk_reference::generate::tiny::tiny;
use penthluk_reference::limits::{MAX_OPERATIONS, MAX_PLAN_BYTES};
use penthluk_reference::marker::mark;
use penthluk_reference::network::Network;
use penthluk_reference::plan_text::{parse_plan, write_plan};
use penthluk_reference::play::{check_pass, play};
use penthluk_reference::reader::read_network;
use penthluk_reference::refusal::{BIT_COUNT, CONFIGURATION, TARGET};

/// How often each verdict came.
#[derive(Default, Debug)]
struct Verdicts {
    passes: usize,
    passes_with_targets: usize,
    passes_with_operations: usize,
    bit_count: usize,
    configuration: usize,
    target: usize,
}

/// Marks many plans; plays those that pass, and those that end in a configuration that is not
/// valid.
fn check_marks(seed: u64, cases: usize, draw: fn(&mut Random) -> Vec<u8>) -> Verdicts {
    let random = &mut Random::new(seed);
    let mut verdicts = Verdicts::default();
    for _ in 0..cases {
        let (text, network) = accepted(random, draw);
        let operations = draw_plan(random, &network);
        let plan = write_plan(&operations);
        match mark(&text, &plan) {
            Ok(pass) => {
                let played = check_pass(&network, &plan, &pass, &mut || random.bit());
                assert_eq!(played, Ok(()), "{}", String::from_utf8_lossy(&text));
                verdicts.passes += 1;
                verdicts.passes_with_targets += usize::from(!network.targets.is_empty());
                verdicts.passes_with_operations += usize::from(!operations.is_empty());
            }
            Err(refusal) => match refusal.number {
                BIT_COUNT => verdicts.bit_count += 1,
                TARGET => verdicts.target += 1,
                CONFIGURATION => {
                    let upto = refusal.place;
                    assert!(some_setting_is_invalid(&network, &operations[..upto], random));
                    verdicts.configuration += 1;
                }
                _ => panic!("{refusal:?}"),
            },
        }
    }
    verdicts
}

/// Whether one of the ways to fill the unknown bits leads to a setting that is not valid. An
/// unknown address bit may happen to be filled well.
fn some_setting_is_invalid(
    network: &Network,
    operations: &[Vec<bool>],
    random: &mut Random,
) -> bool {
    let plan = write_plan(operations);
    let (mut tms, mut tdi) = (vec![0; MAX_PLAN_BYTES], vec![0; MAX_PLAN_BYTES]);
    let clocks = write_clocks(&plan, &mut tms, &mut tdi).expect("the plan is of good form");
    let unknown = network.start.iter().flatten().any(|bit| bit.is_none());
    let played = play(network, &tms[..clocks], &tdi[..clocks], &mut || random.bit());
    assert_eq!(played.last_state, State::RunTestIdle);
    unknown || !played.always_valid
}

#[test]
fn tiny_networks() {
    let verdicts = check_marks(201, 20_000, |random| tiny(random, 8).text());
    assert!(verdicts.passes > 8_000, "{verdicts:?}");
    assert!(verdicts.passes_with_targets > 3_000, "{verdicts:?}");
    assert!(verdicts.passes_with_operations > 5_000, "{verdicts:?}");
    assert!(verdicts.bit_count > 300, "{verdicts:?}");
    assert!(verdicts.configuration > 300, "{verdicts:?}");
    assert!(verdicts.target > 1_000, "{verdicts:?}");
}

#[test]
fn networks_of_all_kinds() {
    let verdicts = check_marks(202, 4_000, |random| draw_network(random).text());
    assert!(verdicts.passes > 1_000, "{verdicts:?}");
    assert!(verdicts.passes_with_targets > 500, "{verdicts:?}");
    assert!(verdicts.passes_with_operations > 800, "{verdicts:?}");
    assert!(verdicts.bit_count > 100, "{verdicts:?}");
    assert!(verdicts.configuration > 50, "{verdicts:?}");
    assert!(verdicts.target > 200, "{verdicts:?}");
}

#[test]
fn networks_with_resets() {
    let verdicts = check_marks(203, 4_000, |random| draw_reset_network(random).text());
    assert!(verdicts.passes > 1_000, "{verdicts:?}");
    assert!(verdicts.passes_with_targets > 500, "{verdicts:?}");
    assert!(verdicts.passes_with_operations > 800, "{verdicts:?}");
    assert!(verdicts.bit_count > 100, "{verdicts:?}");
    assert!(verdicts.configuration > 50, "{verdicts:?}");
    assert!(verdicts.target > 200, "{verdicts:?}");
}

#[test]
fn networks_with_long_registers() {
    let verdicts = check_marks(204, 4_000, |random| draw_long_network(random).text());
    assert!(verdicts.passes > 1_000, "{verdicts:?}");
    assert!(verdicts.passes_with_targets > 500, "{verdicts:?}");
    assert!(verdicts.passes_with_operations > 800, "{verdicts:?}");
    assert!(verdicts.bit_count > 100, "{verdicts:?}");
    assert!(verdicts.configuration > 50, "{verdicts:?}");
    assert!(verdicts.target > 200, "{verdicts:?}");
}

/// Where a change of a plan that passes settles the refusal, that one comes.
#[test]
fn near_plans() {
    let random = &mut Random::new(205);
    let mut settled = 0;
    for _ in 0..1_000 {
        let exercise = draw_exercise(random);
        let network = read_network(&exercise.network).expect("it is accepted");
        let plan = parse_plan(&exercise.plan).expect("it is of good form");
        for change in CHANGES {
            if let Some((plan, Some(refusal))) = near(random, &network, &plan, change) {
                assert_eq!(mark(&exercise.network, &write_plan(&plan)), Err(refusal), "{change:?}");
                settled += 1;
            }
        }
    }
    assert!(settled > 1_000, "{settled}");
    // one bit more in the longest plan
    let text = longest_row(random).text();
    let network = read_network(&text).expect("it is accepted");
    let plan = wander(random, &network, MAX_OPERATIONS, 0);
    assert_eq!(mark(&text, &write_plan(&plan)).map(|pass| pass.clocks), Ok(MAX_PLAN_BYTES));
    let (longer, expected) = near(random, &network, &plan, Change::Longer).expect("a change");
    assert_eq!(mark(&text, &write_plan(&longer)), refused(14, 0));
    assert_eq!(expected, refused::<()>(14, 0).err());
}
