//! Exercises: a network text and a plan text for it.

use super::card::card;
use super::cases::{draw_network, draw_plan};
use super::draft::{Draft, Entry};
use super::long_cases::draw_long_network;
use super::near::before;
use super::plans::wander;
use super::random::Random;
use super::reset_cases::draw_reset_network;
use crate::limits::MAX_TARGETS;
use crate::marker::{mark, mark_plan};
use crate::network::Network;
use crate::plan_text::write_plan;
use crate::reader::read_network;
use crate::steering::is_steering_segment;
use crate::text::written;

#[derive(Clone, Debug, PartialEq, Eq)]
pub struct Exercise {
    pub network: Vec<u8>,
    pub plan: Vec<u8>,
}

impl Exercise {
    pub fn passes(&self) -> bool {
        mark(&self.network, &self.plan).is_ok()
    }
}

/// Draws an exercise that passes. Its targets are drawn before its plan or after it.
pub fn draw_exercise(random: &mut Random) -> Exercise {
    loop {
        let mut draft = draw_start(random);
        let Ok(network) = read_network(&draft.text()) else { continue };
        let plan = match random.bit() {
            true => draw_plan(random, &network),
            false => meet(random, &mut draft, &network),
        };
        let exercise = Exercise { network: draft.text(), plan: write_plan(&plan) };
        if exercise.passes() {
            return exercise;
        }
    }
}

/// A network of any kind, most often a card.
fn draw_start(random: &mut Random) -> Draft {
    match random.below(8) {
        0 | 1 => draw_network(random),
        2 | 3 => draw_reset_network(random),
        4 => draw_long_network(random),
        _ => card(random),
    }
}

/// Draws a plan and gives the draft targets that it meets in place of its own.
fn meet(random: &mut Random, draft: &mut Draft, network: &Network) -> Vec<Vec<bool>> {
    let plan = valid_wander(random, network);
    draft.entries.retain(|entry| matches!(entry, Entry::Hold { .. }));
    draft.entries.extend(met_targets(random, network, &plan));
    random.shuffle(&mut draft.entries);
    plan
}

/// Random operations, at most eight, that keep the configuration valid.
pub fn valid_wander(random: &mut Random, network: &Network) -> Vec<Vec<bool>> {
    let operations = *random.pick(&[0, 1, 2, 2, 3, 4, 5, 8]);
    let mut plan = wander(random, network, operations, 80);
    let bare = Network { targets: Vec::new(), ..network.clone() };
    if let Err(refusal) = mark_plan(&bare, &plan) {
        plan.truncate(refusal.place - 1);
    }
    plan
}

/// Up to four targets that a plan meets: segments on its paths, to be read or to be written with the bits
/// that they hold at the end.
pub fn met_targets(random: &mut Random, network: &Network, plan: &[Vec<bool>]) -> Vec<Entry> {
    let paths = (0..plan.len()).filter_map(|index| before(network, plan, index));
    let mut segments: Vec<usize> = paths.flat_map(|(path, _)| path).collect();
    segments.sort_unstable();
    segments.dedup();
    segments.retain(|&segment| !is_steering_segment(&network.nodes, segment));
    let (_, last) = before(network, plan, plan.len()).expect("the plan is valid");
    let mut targets = Vec::new();
    for segment in segments {
        targets.push(Entry::Read { segment });
        targets.push(Entry::Write { segment, bits: written(&last[segment - 1]) });
    }
    random.shuffle(&mut targets);
    targets.truncate(random.below(MAX_TARGETS + 1));
    targets
}
