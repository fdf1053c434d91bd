//! The generated lists of clocks go everywhere.

use penthluk_reference::clocks::Clock;
use penthluk_reference::controller::{State, STATES};
use penthluk_reference::generate::clock_lists::{clock_list, reset_clock_list, ClockList};
use penthluk_reference::generate::reset_forms::reset_forms;
use penthluk_reference::network::Network;
use penthluk_reference::path::{path_length, walk};
use std::collections::BTreeMap;
use std::ops::Range;

/// The seeds of the lists that the script tests/definitions has computed: twelve modules of 20.
const SEEDS: Range<u64> = 20..20 * 13;
/// The same for the lists with RESET fields: twelve modules of 5.
const RESET_SEEDS: Range<u64> = 1_005..1_065;

/// How often at least each thing is met.
const LEAST: usize = 5;

const NOT_VALID: &str = "setting that is not valid";
const PLAIN: &str = "plain segment on the path";
const OFF: &str = "segment off the path";
const NO_BITS: [&str; 2] = ["path without bits, TDI 0", "path without bits, TDI 1"];
const TURNED: &str = "update to a setting that is not valid";
const NO_SHIFTS: &str = "update without a shift";
const MORE_SHIFTS: &str = "update after more shifts than places";

fn transition(state: State, tms: bool) -> String {
    format!("TMS {} in {state:?}", u8::from(tms))
}

fn in_state(what: &str, state: State) -> String {
    format!("{what} in {state:?}")
}

/// What the lists must meet.
fn wanted() -> Vec<String> {
    let mut names = [TURNED, NO_SHIFTS, MORE_SHIFTS].map(str::to_string).to_vec();
    for state in STATES {
        names.extend([false, true].map(|tms| transition(state, tms)));
        let [on_zero, on_one] = NO_BITS;
        names.extend([NOT_VALID, PLAIN, OFF, on_zero, on_one].map(|what| in_state(what, state)));
    }
    names
}

/// One clock, and the frame before it.
struct Step {
    clock: Clock,
    state: State,
    /// None in a setting that is not valid.
    path: Option<Vec<usize>>,
}

fn steps(list: &ClockList) -> Vec<Step> {
    let mut steps = Vec::new();
    list.play(|frame, clock| {
        let path = walk(&list.network, frame.setting()).ok();
        steps.push(Step { clock, state: frame.state(), path });
    });
    steps
}

/// What one clock meets.
fn met_at(network: &Network, step: &Step) -> Vec<String> {
    let mut met = vec![transition(step.state, step.clock.tms)];
    let mut meet = |what| met.push(in_state(what, step.state));
    let Some(path) = &step.path else {
        meet(NOT_VALID);
        return met;
    };
    if path.iter().any(|&segment| network.is_plain(segment)) {
        meet(PLAIN);
    }
    if (1..=network.nodes.len()).any(|node| network.len(node) > 0 && !path.contains(&node)) {
        meet(OFF);
    }
    if path.is_empty() {
        meet(NO_BITS[usize::from(step.clock.tdi)]);
    }
    met
}

/// What the clocks in Update-DR meet, with those before and behind them.
fn met_by_updates(network: &Network, steps: &[Step]) -> Vec<String> {
    let mut met = Vec::new();
    let mut meet = |what: &str| met.push(what.to_string());
    let mut shifts = 0;
    for (index, step) in steps.iter().enumerate() {
        let Some(path) = &step.path else { break };
        match step.state {
            State::CaptureDr => shifts = 0,
            State::ShiftDr => shifts += 1,
            State::UpdateDr if shifts == 0 => meet(NO_SHIFTS),
            State::UpdateDr if shifts > path_length(network, path) => meet(MORE_SHIFTS),
            _ => {}
        }
        if steps.get(index + 1).is_some_and(|next| next.path.is_none()) {
            assert_eq!(step.state, State::UpdateDr);
            meet(TURNED);
        }
    }
    met
}

/// How many of the texts have a form.
fn count(seeds: Range<u64>, draw: fn(u64) -> ClockList, form: &str) -> usize {
    seeds.filter(|&seed| reset_forms(&draw(seed).text).contains(&form)).count()
}

/// Both forms of the texts come, and RESET with a `hold` over it.
#[test]
fn texts_with_and_without_resets() {
    assert_eq!(count(SEEDS, clock_list, "no RESET"), 240);
    for (form, least) in [("RESET", 40), ("hold over RESET", 25)] {
        let count = count(RESET_SEEDS, reset_clock_list, form);
        assert!(count >= least, "{form}: {count} times");
    }
}

#[test]
fn everything_is_met() {
    let mut counts: BTreeMap<String, usize> = BTreeMap::new();
    for seed in SEEDS {
        let list = clock_list(seed);
        let steps = steps(&list);
        let at_clocks = steps.iter().flat_map(|step| met_at(&list.network, step));
        for what in at_clocks.chain(met_by_updates(&list.network, &steps)) {
            *counts.entry(what).or_default() += 1;
        }
    }
    for what in wanted() {
        let count = counts.get(&what).copied().unwrap_or(0);
        assert!(count >= LEAST, "{what}: {count} times");
    }
}
