//! One line of a record at a time, in lent memory.

use super::clk_fields;
use super::follower::{Follower, Sink};
use crate::controller::{State, STATES};
use crate::limits::{MAX_CLOCK_LINE_BYTES, MAX_OPERATIONS, MAX_PLAN_BYTES};
use crate::refusal::{Refusal, BUFFER, CLOCK_LINE};
use crate::text::lines;

/// How far a record is followed, as numbers. The first progress has state 1 and no more.
#[derive(Clone, Copy, Debug, PartialEq, Eq)]
pub struct Progress {
    /// Lines so far.
    pub lines: usize,
    /// The state's number in the order of document 01, from 0.
    pub state: usize,
    /// Entries to Capture-DR.
    pub entries: usize,
    /// Bytes of plan that are counted. While a passage is under way one fewer stands, as its line
    /// has no end yet.
    pub bytes: usize,
}

impl Default for Progress {
    fn default() -> Progress {
        Progress::new(0, &Follower::default())
    }
}

impl Progress {
    fn new(lines: usize, &Follower { state, entries, bytes }: &Follower) -> Progress {
        Progress { lines, state: state as usize, entries, bytes }
    }

    /// The controller, or 19 at `lines` for what no line leaves behind.
    fn follower(&self) -> Result<Follower, Refusal> {
        let Progress { lines, state, entries, bytes } = *self;
        let possible = (State::RunTestIdle as usize..=State::UpdateDr as usize).contains(&state)
            && entries <= MAX_OPERATIONS
            && bytes <= MAX_PLAN_BYTES
            && lines < usize::MAX;
        let refusal = Refusal::new(CLOCK_LINE, lines);
        let state = STATES.get(state).copied().filter(|_| possible).ok_or(refusal)?;
        let follower = Follower { state, entries, bytes };
        let written = !follower.is_under_way() || bytes > 0;
        written.then_some(follower).ok_or(refusal)
    }
}

/// Takes only the count of bytes.
struct Nowhere;

impl Sink for Nowhere {
    fn put(&mut self, _: &[u8]) {}
}

/// Takes bytes from its front on.
struct Room<'p>(&'p mut [u8]);

impl Sink for Room<'_> {
    fn put(&mut self, bytes: &[u8]) {
        let (front, behind) = std::mem::take(&mut self.0).split_at_mut(bytes.len());
        front.copy_from_slice(bytes);
        self.0 = behind;
    }
}

/// Follows one more line, without its line end, and writes what it adds behind the plan so far: 19, at
/// `lines` for a progress that can't be, else at the line; then 13 with the bytes counted after it.
pub fn recover_line(
    progress: &Progress,
    line: &[u8],
    plan: &mut [u8],
) -> Result<Progress, Refusal> {
    let mut follower = progress.follower()?;
    let number = progress.lines + 1;
    let refusal = Refusal::new(CLOCK_LINE, number);
    let (tms, tdi) = clk_fields(line).ok_or(refusal)?;
    let mut counted = follower;
    counted.follow(tms, tdi, &mut Nowhere).ok_or(refusal)?;
    if plan.len() < counted.bytes {
        return Err(Refusal::new(BUFFER, counted.bytes));
    }
    let written = follower.bytes - usize::from(follower.is_under_way());
    follower.follow(tms, tdi, &mut Room(&mut plan[written..])).ok_or(refusal)?;
    Ok(Progress::new(number, &follower))
}

/// The bytes of the plan at the end of the text; `rest` is what stands behind the last line end. 19 at
/// `lines` for a progress that can't be, at the line of the rest, or at the last line.
pub fn recover_end(progress: &Progress, rest: &[u8]) -> Result<usize, Refusal> {
    let follower = progress.follower()?;
    if !rest.is_empty() {
        return Err(Refusal::new(CLOCK_LINE, progress.lines + 1));
    }
    if follower.state != State::RunTestIdle {
        return Err(Refusal::new(CLOCK_LINE, progress.lines));
    }
    Ok(follower.bytes)
}

/// Follows every line of a text that has ended, the first one behind `progress`. Gives the progress and
/// what stands behind the last line end, which goes before the next part. A rest that is too long for a
/// line is refused before its end comes.
pub fn recover_part<'t>(
    progress: &Progress,
    text: &'t [u8],
    plan: &mut [u8],
) -> Result<(Progress, &'t [u8]), Refusal> {
    let mut progress = *progress;
    let mut rest: &[u8] = b"";
    for line in lines(text) {
        if line.ended {
            progress = recover_line(&progress, line.bytes, plan)?;
        } else {
            rest = line.bytes;
        }
    }
    if rest.len() >= MAX_CLOCK_LINE_BYTES {
        return Err(Refusal::new(CLOCK_LINE, progress.lines + 1));
    }
    Ok((progress, rest))
}
