//! The marker: "judges a plan text against a network text".

use crate::clocks::operation_clocks;
use crate::network::{Configuration, Network, Target};
use crate::path::{csu, is_valid, path_length, place_of, walk};
use crate::plan_text::parse_plan;
use crate::reader::read_network;
use crate::refusal::{Refusal, BIT_COUNT, CONFIGURATION, START, TARGET};

/// "for each read target in order `got`, target, first operation with it on the path, place of
/// its bit 0". Targets and operations count from 1.
#[derive(Clone, Copy, Debug, PartialEq, Eq)]
pub struct Got {
    pub target: usize,
    pub operation: usize,
    pub place: usize,
}

/// "`pass` reports the count of plan lines and the count of clocks fed."
#[derive(Clone, Debug, PartialEq, Eq)]
pub struct Pass {
    pub operations: usize,
    pub clocks: usize,
    pub gots: Vec<Got>,
}

/// "Marker: the network's refusals, then all 14, text length first, then 15 and 16 by operation,
/// then 17."
pub fn mark(network_text: &[u8], plan_text: &[u8]) -> Result<Pass, Refusal> {
    mark_texts(network_text, plan_text).map(|marked| marked.pass)
}

/// A pass with the network and the configuration that the plan leaves.
pub struct Marked {
    pub network: Network,
    pub pass: Pass,
    pub last: Configuration,
}

/// The mark of two texts.
pub fn mark_texts(network_text: &[u8], plan_text: &[u8]) -> Result<Marked, Refusal> {
    let network = read_network(network_text)?;
    let operations = parse_plan(plan_text)?;
    let (pass, last) = mark_plan(&network, &operations)?;
    Ok(Marked { network, pass, last })
}

/// The mark of a parsed plan, and the last configuration.
pub fn mark_plan(
    network: &Network,
    operations: &[Vec<bool>],
) -> Result<(Pass, Configuration), Refusal> {
    let mut configuration = network.start.clone();
    let mut accesses = vec![None; network.targets.len()];
    let mut clocks = 0;
    for (index, bits) in operations.iter().enumerate() {
        let path = walk(network, &configuration).map_err(|number| Refusal::new(START, number))?;
        if bits.len() != path_length(network, &path) {
            return Err(Refusal::new(BIT_COUNT, index + 1));
        }
        note_accesses(network, &path, index + 1, &mut accesses);
        csu(network, &mut configuration, &path, bits);
        // "the start and every later configuration, the last included, is valid"
        if !is_valid(network, &configuration) {
            return Err(Refusal::new(CONFIGURATION, index + 1));
        }
        clocks += operation_clocks(bits).count();
    }
    let gots = judge_targets(network, &configuration, &accesses)?;
    Ok((Pass { operations: operations.len(), clocks, gots }, configuration))
}

/// The first operation with a target on the path, and the place of its bit 0 there.
type Access = Option<(usize, usize)>;

/// Notes the targets that are on the path for the first time.
fn note_accesses(network: &Network, path: &[usize], operation: usize, accesses: &mut [Access]) {
    for (target, access) in network.targets.iter().zip(accesses) {
        if access.is_none() {
            *access = place_of(network, path, target.segment()).map(|place| (operation, place));
        }
    }
}

/// "a read target is on some operation's path; a write target is on some operation's path and
/// holds its bits at the end"; 17 goes to the "lowest target".
fn judge_targets(
    network: &Network,
    last: &Configuration,
    accesses: &[Access],
) -> Result<Vec<Got>, Refusal> {
    let mut gots = Vec::new();
    for (index, (target, access)) in network.targets.iter().zip(accesses).enumerate() {
        let number = index + 1;
        let (operation, place) = access.ok_or(Refusal::new(TARGET, number))?;
        match target {
            Target::Read { .. } => gots.push(Got { target: number, operation, place }),
            Target::Write { segment, bits } => {
                if !holds(&last[*segment - 1], bits) {
                    return Err(Refusal::new(TARGET, number));
                }
            }
        }
    }
    Ok(gots)
}

/// Whether all these bits are known and as wanted.
pub fn holds(held: &[Option<bool>], wanted: &[bool]) -> bool {
    held.iter().copied().eq(wanted.iter().copied().map(Some))
}
