//! A plan's clocks played on the test frame, and the claim that a `pass` makes about them.

use crate::clocks::write_clocks;
use crate::controller::State;
use crate::frame::Frame;
use crate::limits::MAX_PLAN_BYTES;
use crate::marker::{holds, Got, Pass};
use crate::network::{Configuration, Network, Target};
use crate::plan_text::plan_lines;

/// A bit fed at a clock in Capture-DR, with the segment's number and the bit's.
#[derive(Clone, Copy, Debug, PartialEq, Eq)]
pub struct Fed {
    pub segment: usize,
    pub bit: usize,
    pub value: bool,
}

/// What was seen while a list of clocks was played.
pub struct Playback {
    /// Whether the setting was valid at the start and after each clock.
    pub always_valid: bool,
    /// The bit shown at each clock.
    pub shown: Vec<Option<bool>>,
    /// The bits fed at each clock, in place order.
    pub fed: Vec<Vec<Fed>>,
    pub last_state: State,
    pub last_setting: Configuration,
}

/// Plays the clocks. `any` gives the unknown start bits, the first shift bits and the captures.
pub fn play(network: &Network, tms: &[u8], tdi: &[u8], any: &mut dyn FnMut() -> bool) -> Playback {
    let mut frame = Frame::new(network, any);
    let mut always_valid = frame.setting_is_valid();
    let (mut shown, mut fed) = (Vec::new(), Vec::new());
    for (tms, tdi) in tms.iter().zip(tdi) {
        let mut fed_now = Vec::new();
        let mut source = |segment, bit| {
            let value = any();
            fed_now.push(Fed { segment, bit, value });
            value
        };
        shown.push(frame.clock(*tms == b'1', *tdi == b'1', &mut source));
        fed.push(fed_now);
        always_valid &= frame.setting_is_valid();
    }
    let (last_state, last_setting) = (frame.state(), frame.setting().clone());
    Playback { always_valid, shown, fed, last_state, last_setting }
}

/// Plays a plan text that has passed and checks all that the pass says of it.
pub fn check_pass(
    network: &Network,
    plan_text: &[u8],
    pass: &Pass,
    any: &mut dyn FnMut() -> bool,
) -> Result<(), String> {
    let mut tms = vec![0; MAX_PLAN_BYTES];
    let mut tdi = vec![0; MAX_PLAN_BYTES];
    let clocks = write_clocks(plan_text, &mut tms, &mut tdi).map_err(|r| format!("{r:?}"))?;
    let playback = play(network, &tms[..clocks], &tdi[..clocks], any);
    let operations = plan_lines(plan_text).map_err(|r| format!("{r:?}"))?;
    demand(clocks == pass.clocks, "the count of clocks differs")?;
    demand(operations.len() == pass.operations, "the count of operations differs")?;
    demand(playback.always_valid, "a setting is not valid")?;
    demand(playback.last_state == State::RunTestIdle, "the end is outside Run-Test/Idle")?;
    demand(writes_hold(network, &playback.last_setting), "a write target differs")?;
    demand(reads_have_gots(network, &pass.gots), "the gots are not those of the read targets")?;
    let starts = operation_starts(&operations);
    demand(places_show(&playback, &starts), "a captured bit does not show at its place")?;
    for got in &pass.gots {
        demand(got_shows(network, &playback, &starts, got), "a got does not show")?;
        demand(got_is_first(network, &playback, &starts, got), "a got comes too late")?;
    }
    Ok(())
}

fn demand(condition: bool, otherwise: &str) -> Result<(), String> {
    condition.then_some(()).ok_or_else(|| otherwise.to_string())
}

/// The index of the first clock of each operation; an operation of n bits is n + 5 clocks.
fn operation_starts(operations: &[&[u8]]) -> Vec<usize> {
    let mut start = 0;
    let mut starts = Vec::new();
    for bits in operations {
        starts.push(start);
        start += bits.len() + 5;
    }
    starts
}

/// "a write target [..] holds its bits at the end"
fn writes_hold(network: &Network, setting: &Configuration) -> bool {
    network.targets.iter().all(|target| match target {
        Target::Write { segment, bits } => holds(&setting[*segment - 1], bits),
        Target::Read { .. } => true,
    })
}

/// One `got` for each read target, in order.
fn reads_have_gots(network: &Network, gots: &[Got]) -> bool {
    let is_read = |index: &usize| matches!(network.targets[*index], Target::Read { .. });
    let reads = (0..network.targets.len()).filter(is_read).map(|index| index + 1);
    reads.eq(gots.iter().map(|got| got.target))
}

/// "Scan-out at shift clock i shows the bit captured at place i." Each operation has one clock
/// with captures, its third; "Shift clock i, from 0, is clock i + 4 of its operation, counted
/// from 1."
fn places_show(playback: &Playback, starts: &[usize]) -> bool {
    starts.iter().all(|&start| {
        let fed = &playback.fed[start + 2];
        let mut places = fed.iter().enumerate();
        places.all(|(place, fed)| playback.shown[start + 3 + place] == Some(fed.value))
    })
}

/// "Of a `got` with target t, operation k and place p: for every j below LEN, the bit fed to bit
/// j of t's segment at the Capture-DR clock of operation k shows at its shift clock p + j."
fn got_shows(network: &Network, playback: &Playback, starts: &[usize], got: &Got) -> bool {
    let segment = network.targets[got.target - 1].segment();
    let Some(&start) = starts.get(got.operation - 1) else { return false };
    let fed = &playback.fed[start + 2];
    (0..network.len(segment)).all(|j| {
        let value = fed.iter().find(|fed| fed.segment == segment && fed.bit == j);
        let shown = playback.shown.get(start + 3 + got.place + j);
        value.is_some_and(|fed| shown == Some(&Some(fed.value)))
    })
}

/// "first operation with it on the path"
fn got_is_first(network: &Network, playback: &Playback, starts: &[usize], got: &Got) -> bool {
    let segment = network.targets[got.target - 1].segment();
    let earlier = &starts[..got.operation - 1];
    earlier.iter().all(|start| playback.fed[start + 2].iter().all(|fed| fed.segment != segment))
}
