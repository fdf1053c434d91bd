//! Plans one change away from a plan that passes.

use super::random::Random;
use crate::limits::MAX_PLAN_BYTES;
use crate::network::{Configuration, Network};
use crate::path::{csu, is_valid, walk};
use crate::plan_text::write_plan;
use crate::refusal::{Refusal, BIT_COUNT, CONFIGURATION, PLAN_FORM};
use crate::steering::steering_bits;

#[derive(Clone, Copy, Debug, PartialEq, Eq)]
pub enum Change {
    /// An operation with one bit more.
    Longer,
    /// An operation with one bit less.
    Shorter,
    /// A bit of an operation turned.
    Bit,
    /// A steering bit of an operation turned.
    Address,
    /// The last operations left out.
    Cut,
    /// A last operation that leads to a configuration that is not valid.
    BadLast,
}

use Change::*;

pub const CHANGES: [Change; 6] = [Longer, Shorter, Bit, Address, Cut, BadLast];

/// A plan with this change at random, and its refusal where the change alone settles it.
/// `None` if the plan does not allow the change.
pub fn near(
    random: &mut Random,
    network: &Network,
    plan: &[Vec<bool>],
    change: Change,
) -> Option<(Vec<Vec<bool>>, Option<Refusal>)> {
    if plan.is_empty() {
        return None;
    }
    let index = random.below(plan.len());
    let mut plan = plan.to_vec();
    let mut expected = None;
    match change {
        Longer => {
            let at = random.below(plan[index].len() + 1);
            plan[index].insert(at, random.bit());
            expected = Some(match write_plan(&plan).len() {
                0..=MAX_PLAN_BYTES => Refusal::new(BIT_COUNT, index + 1),
                _ => Refusal::new(PLAN_FORM, 0),
            });
        }
        Shorter => {
            let at = random.below(plan[index].len().max(1));
            (at < plan[index].len()).then(|| plan[index].remove(at))?;
            expected = Some(Refusal::new(BIT_COUNT, index + 1));
        }
        Bit => {
            let at = random.below(plan[index].len().max(1));
            *plan[index].get_mut(at)? ^= true;
        }
        Address => {
            let places = steering_places(network, &plan, index);
            (!places.is_empty()).then(|| plan[index][*random.pick(&places)] ^= true)?;
        }
        Cut => plan.truncate(index),
        BadLast => {
            let last = plan.pop()?;
            let bits = bad_bits(random, network, &plan, &last)?;
            plan.push(bits);
            expected = Some(Refusal::new(CONFIGURATION, plan.len()));
        }
    }
    Some((plan, expected))
}

/// The segments on the path of operation `index`, counted from 0, and the configuration there.
pub(super) fn before(
    network: &Network,
    plan: &[Vec<bool>],
    index: usize,
) -> Option<(Vec<usize>, Configuration)> {
    let mut configuration = network.start.clone();
    for bits in &plan[..index] {
        let path = walk(network, &configuration).ok()?;
        csu(network, &mut configuration, &path, bits);
    }
    Some((walk(network, &configuration).ok()?, configuration))
}

/// The places of the steering bits on the path of an operation.
fn steering_places(network: &Network, plan: &[Vec<bool>], index: usize) -> Vec<usize> {
    let steering = steering_bits(&network.nodes);
    let (path, _) = before(network, plan, index).unwrap_or_default();
    let bits =
        path.iter().flat_map(|&segment| (0..network.len(segment)).map(move |bit| (segment, bit)));
    bits.enumerate().filter(|(_, bit)| steering.contains(bit)).map(|(place, _)| place).collect()
}

/// Bits for an operation behind a plan that lead to a configuration that is not valid: a change of
/// some bits of `last`, or all 1.
fn bad_bits(
    random: &mut Random,
    network: &Network,
    plan: &[Vec<bool>],
    last: &[bool],
) -> Option<Vec<bool>> {
    let (path, configuration) = before(network, plan, plan.len())?;
    let mut bits = vec![true; last.len()];
    for _ in 0..8 {
        let mut next = configuration.clone();
        csu(network, &mut next, &path, &bits);
        if !is_valid(network, &next) {
            return Some(bits);
        }
        bits = last.iter().map(|&bit| bit ^ random.percent(50)).collect();
    }
    None
}
