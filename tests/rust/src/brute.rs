//! Searches that follow the rules of validity alone, for small networks.
//!
//! They keep the whole configuration and try every bit string, so they need nothing that the
//! planner relies on.

use std::collections::HashSet;

use crate::limits::MAX_OPERATIONS;
use crate::marker::holds;
use crate::network::{Configuration, Network, Target};
use crate::path::{csu, is_valid, path_length, walk};
use crate::steering::steering_bits;

/// A configuration and the mask of targets that were on some operation's path.
type Situation = (Configuration, u8);

/// The least count of operations over all valid plans of at most 16 operations.
pub fn least_operations(network: &Network) -> Option<usize> {
    let mut frontier: Vec<Situation> = vec![(network.start.clone(), 0)];
    let mut met: HashSet<Situation> = frontier.iter().cloned().collect();
    for operations in 0..=MAX_OPERATIONS {
        if frontier.iter().any(|situation| is_finished(network, situation)) {
            return Some(operations);
        }
        let mut next_frontier = Vec::new();
        for situation in &frontier {
            for bits in all_operations(network, &situation.0) {
                let next = after(network, situation, &bits);
                if is_valid(network, &next.0) && met.insert(next.clone()) {
                    next_frontier.push(next);
                }
            }
        }
        frontier = next_frontier;
    }
    None
}

/// The first in order of the filled valid plans with so many operations: "It shifts a write
/// target's bits whenever that segment is on the path, and 0 in every other bit that does not
/// steer. Among such plans it takes the one whose scan-in bits come first, 0 before 1."
pub fn first_filled_plan(network: &Network, operations: usize) -> Option<Vec<Vec<bool>>> {
    let mut plan = Vec::new();
    let mut dead = HashSet::new();
    let start = (network.start.clone(), 0);
    extend(network, &start, operations, &mut plan, &mut dead).then_some(plan)
}

/// Extends a plan by exactly `left` operations, first choice first. `dead` keeps the situations
/// that so many operations do not finish.
fn extend(
    network: &Network,
    situation: &Situation,
    left: usize,
    plan: &mut Vec<Vec<bool>>,
    dead: &mut HashSet<(Situation, usize)>,
) -> bool {
    if left == 0 {
        return is_finished(network, situation);
    }
    if dead.contains(&(situation.clone(), left)) {
        return false;
    }
    for bits in all_operations(network, &situation.0) {
        if !is_filled(network, &situation.0, &bits) {
            continue;
        }
        let next = after(network, situation, &bits);
        plan.push(bits);
        if is_valid(network, &next.0) && extend(network, &next, left - 1, plan, dead) {
            return true;
        }
        plan.pop();
    }
    dead.insert((situation.clone(), left));
    false
}

/// Every bit string of the path length, in order, 0 before 1 and the first bit weighing most.
fn all_operations(
    network: &Network,
    configuration: &Configuration,
) -> impl Iterator<Item = Vec<bool>> {
    let length = path_length(network, &walk(network, configuration).unwrap_or_default());
    (0..1u64 << length)
        .map(move |value| (0..length).map(|place| value >> (length - 1 - place) & 1 == 1).collect())
}

/// The situation after an operation.
fn after(network: &Network, situation: &Situation, bits: &[bool]) -> Situation {
    let (mut configuration, mut reached) = situation.clone();
    let path = walk(network, &configuration).unwrap_or_default();
    for (index, target) in network.targets.iter().enumerate() {
        reached |= u8::from(path.contains(&target.segment())) << index;
    }
    csu(network, &mut configuration, &path, bits);
    (configuration, reached)
}

/// Whether all targets were reached and every write target holds its bits.
fn is_finished(network: &Network, (configuration, reached): &Situation) -> bool {
    network.targets.iter().enumerate().all(|(index, target)| {
        let held = match target {
            Target::Read { .. } => true,
            Target::Write { segment, bits } => holds(&configuration[*segment - 1], bits),
        };
        held && reached >> index & 1 == 1
    })
}

/// Whether an operation's bits are those that the planner's filling allows.
pub fn is_filled(network: &Network, configuration: &Configuration, bits: &[bool]) -> bool {
    let steering = steering_bits(&network.nodes);
    let mut rest = bits;
    walk(network, configuration).unwrap_or_default().into_iter().all(|segment| {
        let (own, behind) = rest.split_at(network.len(segment));
        rest = behind;
        match network.write_bits(segment) {
            Some(wanted) => own == wanted,
            None => {
                let mut bits = own.iter().enumerate();
                bits.all(|(bit, &value)| !value || steering.contains(&(segment, bit)))
            }
        }
    })
}
