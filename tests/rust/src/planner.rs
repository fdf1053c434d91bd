//! The planner: "gives the fewest operations. It shifts a write target's bits whenever that
//! segment is on the path, and 0 in every other bit that does not steer. Among such plans it
//! takes the one whose scan-in bits come first, 0 before 1."
//!
//! A write target that was shifted once so holds its bits ever after, and no target steers. So
//! the rest of a plan depends only on the setting of the steering bits (`settings`) and on the
//! set of targets reached. `search` finds the shortest way over these states.

mod search;
mod settings;

use crate::limits::{MAX_STEERING_BITS, SEARCH_ENTRIES};
use crate::network::Network;
use crate::plan_text::LINE_START;
use crate::reader::read_network;
use crate::refusal::{Refusal, BUFFER, NO_PLAN, SEARCH_SPACE, STEERING_COUNT};
use crate::steering::steering_bits;
use settings::Settings;

/// Writes the plan of a network text and gives its bytes: the network's refusals, then
/// "Planner: 10, 12, 11, 13."
pub fn make_plan(
    network_text: &[u8],
    search: &mut [u16],
    plan: &mut [u8],
) -> Result<usize, Refusal> {
    plan_network(&read_network(network_text)?, search, plan)
}

/// "Past check 12 the first 11,664 search entries end as 0; others never change." "Output buffers
/// change only on success, in the bytes needed."
pub fn plan_network(
    network: &Network,
    search: &mut [u16],
    plan: &mut [u8],
) -> Result<usize, Refusal> {
    let steering = steering_bits(&network.nodes);
    if steering.len() > MAX_STEERING_BITS {
        return Err(Refusal::new(STEERING_COUNT, steering.len()));
    }
    let entries =
        search.get_mut(..SEARCH_ENTRIES).ok_or(Refusal::new(SEARCH_SPACE, SEARCH_ENTRIES))?;
    let mut settings = Settings::new(network, &steering);
    entries.fill(0);
    let found = search::shortest(&mut settings, entries);
    entries.fill(0);
    let passed = found.ok_or(Refusal::new(NO_PLAN, 0))?;

    let operations = &passed[..passed.len() - 1];
    let line_bytes = |&setting: &u16| LINE_START.len() + settings.path_length(setting) + 1;
    let needed = operations.iter().map(line_bytes).sum();
    let plan = plan.get_mut(..needed).ok_or(Refusal::new(BUFFER, needed))?;
    write_lines(&settings, &passed, plan);
    Ok(needed)
}

/// Writes one line for each operation, which leads from one setting to the next.
fn write_lines(settings: &Settings, passed: &[u16], plan: &mut [u8]) {
    let mut rest = plan;
    for pair in passed.windows(2) {
        let length = settings.path_length(pair[0]);
        let (line, behind) = rest.split_at_mut(LINE_START.len() + length + 1);
        line[..LINE_START.len()].copy_from_slice(LINE_START);
        settings.fill(pair[0], pair[1], &mut line[LINE_START.len()..][..length]);
        line[LINE_START.len() + length] = b'\n';
        rest = behind;
    }
}
