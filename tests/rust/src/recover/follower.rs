//! The controller followed along TMS: "Each passage from Capture-DR to Update-DR becomes one `csu` line
//! with the TDI bits of its Shift-DR clocks; waiting in Pause-DR, shifting on after Exit2-DR and going
//! straight from Update-DR to Select-DR are allowed."

use crate::controller::{next, State};
use crate::limits::{MAX_OPERATIONS, MAX_PLAN_BYTES};
use crate::plan_text::LINE_START;

/// What takes the plan's bytes in turn.
pub trait Sink {
    fn put(&mut self, bytes: &[u8]);
}

impl Sink for Vec<u8> {
    fn put(&mut self, bytes: &[u8]) {
        self.extend_from_slice(bytes);
    }
}

/// "more than 64,080 bytes of plan (5 for each entry, 1 for each bit)"
const ENTRY_BYTES: usize = 5;

/// How many bytes of TMS are looked at together.
const WIDTH: usize = 32;

/// The controller's state and what is counted of the plan.
#[derive(Clone, Copy, Debug, PartialEq, Eq)]
pub struct Follower {
    pub state: State,
    /// Entries to Capture-DR.
    pub entries: usize,
    pub bytes: usize,
}

impl Default for Follower {
    fn default() -> Follower {
        Follower { state: State::RunTestIdle, entries: 0, bytes: 0 }
    }
}

impl Follower {
    /// Whether a passage is under way: its entry is counted and its line not ended.
    pub fn is_under_way(&self) -> bool {
        !matches!(self.state, State::RunTestIdle | State::SelectDr)
    }

    /// Follows the clocks of two fields of equal length, each byte `0` or `1`. `None` where a clock is
    /// refused: "entry to Select-IR, a seventeenth entry to Capture-DR, more than 64,080 bytes of plan".
    #[must_use]
    pub fn follow(&mut self, tms: &[u8], tdi: &[u8], plan: &mut impl Sink) -> Option<()> {
        let mut at = 0;
        while at < tms.len() {
            match self.state {
                // These stay as they are while TMS is 0.
                State::RunTestIdle | State::PauseDr | State::ShiftDr => {
                    let end = tms.len().min(at + zeros(&tms[at..]) + 1);
                    if self.state == State::ShiftDr {
                        self.count(end - at)?;
                        plan.put(&tdi[at..end]);
                    }
                    at = end - 1;
                }
                State::UpdateDr => plan.put(b"\n"),
                _ => {}
            }
            self.state = next(self.state, tms[at] == b'1');
            match self.state {
                State::CaptureDr => {
                    self.enter()?;
                    plan.put(LINE_START);
                }
                State::SelectIr => return None,
                _ => {}
            }
            at += 1;
        }
        Some(())
    }

    fn enter(&mut self) -> Option<()> {
        self.entries += 1;
        self.count(ENTRY_BYTES)?;
        (self.entries <= MAX_OPERATIONS).then_some(())
    }

    fn count(&mut self, bytes: usize) -> Option<()> {
        self.bytes += bytes;
        (self.bytes <= MAX_PLAN_BYTES).then_some(())
    }
}

/// How many bytes at the front are `0`.
fn zeros(bytes: &[u8]) -> usize {
    let (chunks, _) = bytes.as_chunks::<WIDTH>();
    let whole = chunks.iter().take_while(|chunk| **chunk == [b'0'; WIDTH]).count() * WIDTH;
    whole + bytes[whole..].iter().take_while(|&&byte| byte == b'0').count()
}
