//! Plans for a network: random ones, and ones made from the planner's.

use super::random::Random;
use crate::limits::{MAX_OPERATIONS, MAX_PLAN_BYTES, SEARCH_ENTRIES};
use crate::network::{Configuration, Network};
use crate::path::{csu, is_valid, path_length, walk};
use crate::plan_text::parse_plan;
use crate::planner::plan_network;
use crate::steering::steering_bits;

/// The planner's plan, if there is one.
pub fn planned(network: &Network) -> Option<Vec<Vec<bool>>> {
    let mut search = vec![0; SEARCH_ENTRIES];
    let mut plan = vec![0; MAX_PLAN_BYTES];
    let bytes = plan_network(network, &mut search, &mut plan).ok()?;
    parse_plan(&plan[..bytes]).ok()
}

/// Random operations, up to this many. Most keep the configuration valid where a few
/// draws find a way. They shift the bits of write targets with the given chance.
pub fn wander(
    random: &mut Random,
    network: &Network,
    operations: usize,
    percent: usize,
) -> Vec<Vec<bool>> {
    wander_from(random, network, network.start.clone(), operations, percent)
}

fn wander_from(
    random: &mut Random,
    network: &Network,
    mut configuration: Configuration,
    operations: usize,
    percent: usize,
) -> Vec<Vec<bool>> {
    let mut plan = Vec::new();
    for _ in 0..operations {
        let Ok(path) = walk(network, &configuration) else { break };
        let mut bits = Vec::new();
        let mut next = configuration.clone();
        let draws = if random.percent(30) { 1 } else { 6 };
        for _ in 0..draws {
            bits = draw_bits(random, network, &path, percent);
            csu(network, &mut next, &path, &bits);
            if is_valid(network, &next) {
                break;
            }
        }
        plan.push(bits);
        configuration = next;
    }
    plan
}

/// Bits for each place of a path.
fn draw_bits(random: &mut Random, network: &Network, path: &[usize], percent: usize) -> Vec<bool> {
    let mut bits = Vec::with_capacity(path_length(network, path));
    for &segment in path {
        match network.write_bits(segment) {
            Some(wanted) if random.percent(percent) => bits.extend(wanted),
            _ => bits.extend((0..network.len(segment)).map(|_| random.bit())),
        }
    }
    bits
}

/// The start and the configuration after each operation of a plan, as far as they fit.
pub fn configurations(network: &Network, plan: &[Vec<bool>]) -> Vec<Configuration> {
    let mut configuration = network.start.clone();
    let mut all = vec![configuration.clone()];
    for bits in plan {
        match walk(network, &configuration) {
            Ok(path) if path_length(network, &path) == bits.len() => {
                csu(network, &mut configuration, &path, bits);
                all.push(configuration.clone());
            }
            _ => break,
        }
    }
    all
}

/// A plan with operations added behind it.
pub fn lengthened(random: &mut Random, network: &Network, plan: &[Vec<bool>]) -> Vec<Vec<bool>> {
    let room = MAX_OPERATIONS - plan.len().min(MAX_OPERATIONS);
    let more = random.below(room.min(4) + 1);
    let last = configurations(network, plan).pop().expect("the start is one");
    [plan, &wander_from(random, network, last, more, 90)].concat()
}

/// A plan with other bits in the places that do not steer and are no write target's, so that it
/// is not filled any more.
pub fn unfilled(random: &mut Random, network: &Network, plan: &[Vec<bool>]) -> Vec<Vec<bool>> {
    let steering = steering_bits(&network.nodes);
    let mut configuration = network.start.clone();
    let mut result = Vec::new();
    for bits in plan {
        let Ok(path) = walk(network, &configuration) else { break };
        let mut place = 0;
        let mut changed = bits.clone();
        for &segment in &path {
            for bit in 0..network.len(segment) {
                let free = !steering.contains(&(segment, bit));
                changed[place] ^= free && network.write_bits(segment).is_none() && random.bit();
                place += 1;
            }
        }
        csu(network, &mut configuration, &path, &changed);
        result.push(changed);
    }
    result
}

/// A plan with one small change: a bit turned, an operation left out, doubled or emptied, or a bit
/// added or taken away.
pub fn mutated(random: &mut Random, plan: &[Vec<bool>]) -> Vec<Vec<bool>> {
    let mut plan = plan.to_vec();
    if plan.is_empty() {
        return vec![vec![random.bit()]];
    }
    let index = random.below(plan.len());
    let bits = plan[index].len();
    match random.below(6) {
        0 if bits > 0 => plan[index][random.below(bits)] ^= true,
        1 => drop(plan.remove(index)),
        2 if plan.len() < MAX_OPERATIONS => plan.insert(index, plan[index].clone()),
        3 => plan[index].clear(),
        4 => plan[index].push(random.bit()),
        _ => drop(plan[index].pop()),
    }
    plan
}
