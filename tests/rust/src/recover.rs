//! "The probe on the bench stores TMS and TDI, and engineers want the plan that was really played. A
//! program reads `clk` lines, joins them and follows the controller from Run-Test/Idle."
//!
//! `recover` takes a whole text and `Recovery` one in pieces, of which it keeps no more than a line.
//! `recover_text` works in lent memory; so do `calls::recover_line` and `calls::recover_end`, a line at a
//! time.

pub mod calls;
pub mod follower;

use std::io::BufRead;

use crate::controller::State;
use crate::limits::MAX_CLOCK_LINE_BYTES;
use crate::refusal::{Refusal, CLOCK_LINE};
use crate::text::put;
use follower::Follower;

/// The TMS and TDI fields of a line without its line end. `None` for "a wrong line form or an empty
/// field, a line over 32,768 bytes, TMS and TDI of unequal length".
pub fn clk_fields(line: &[u8]) -> Option<(&[u8], &[u8])> {
    let fields = line.strip_prefix(b"clk\t")?;
    // The tab between fields of equal length is in the middle.
    let (tms, rest) = fields.split_at(fields.len() / 2);
    let tdi = rest.strip_prefix(b"\t")?;
    let fits = line.len() < MAX_CLOCK_LINE_BYTES && tms.len() == tdi.len() && !tms.is_empty();
    (fits && are_bits(tms) && are_bits(tdi)).then_some((tms, tdi))
}

/// Whether each byte is `0` or `1`. The loop has no exit, so that it is done many bytes at a time.
fn are_bits(bytes: &[u8]) -> bool {
    bytes.iter().fold(0, |all, byte| all | (byte ^ b'0')) <= 1
}

/// The index of the first line end.
fn line_end(mut bytes: &[u8]) -> Option<usize> {
    let before = bytes;
    let skipped = bytes.skip_until(b'\n').expect("a slice can be read");
    before[..skipped].ends_with(b"\n").then(|| skipped - 1)
}

/// The plan text that a text of `clk` lines gives back; the empty one of an empty text.
pub fn recover(text: &[u8]) -> Result<Vec<u8>, Refusal> {
    let mut recovery = Recovery::default();
    recovery.feed(text)?;
    recovery.end()
}

/// Writes the plan text to the front of `plan` and gives its length: 19, then 13.
pub fn recover_text(text: &[u8], plan: &mut [u8]) -> Result<usize, Refusal> {
    put(&recover(text)?, plan)
}

/// A text that comes in pieces, cut anywhere.
pub struct Recovery {
    /// Whole lines so far.
    lines: usize,
    follower: Follower,
    plan: Vec<u8>,
    /// What came behind the last line end.
    rest: Vec<u8>,
    /// A refusal stays.
    so_far: Result<(), Refusal>,
}

impl Default for Recovery {
    fn default() -> Recovery {
        let (follower, plan, rest) = (Follower::default(), Vec::new(), Vec::new());
        Recovery { lines: 0, follower, plan, rest, so_far: Ok(()) }
    }
}

impl Recovery {
    /// Takes the next piece of the text.
    pub fn feed(&mut self, piece: &[u8]) -> Result<(), Refusal> {
        self.so_far?;
        self.so_far = self.feed_lines(piece);
        self.so_far
    }

    /// The plan text, when nothing more comes. An unended last line has a wrong form; "(at the last
    /// line) an end outside Run-Test/Idle".
    pub fn end(self) -> Result<Vec<u8>, Refusal> {
        self.so_far?;
        if !self.rest.is_empty() {
            return Err(self.refusal());
        }
        if self.follower.state != State::RunTestIdle {
            return Err(Refusal::new(CLOCK_LINE, self.lines));
        }
        Ok(self.plan)
    }

    fn feed_lines(&mut self, mut piece: &[u8]) -> Result<(), Refusal> {
        while let Some(end) = line_end(piece) {
            if self.rest.is_empty() {
                self.line(&piece[..end])?;
            } else {
                self.keep(&piece[..end])?;
                let line = std::mem::take(&mut self.rest);
                self.line(&line)?;
                self.rest = line;
                self.rest.clear();
            }
            piece = &piece[end + 1..];
        }
        self.keep(piece)
    }

    /// Keeps a part of a line.
    fn keep(&mut self, part: &[u8]) -> Result<(), Refusal> {
        if self.rest.len() + part.len() >= MAX_CLOCK_LINE_BYTES {
            return Err(self.refusal());
        }
        self.rest.extend_from_slice(part);
        Ok(())
    }

    fn line(&mut self, line: &[u8]) -> Result<(), Refusal> {
        let (tms, tdi) = clk_fields(line).ok_or(self.refusal())?;
        self.follower.follow(tms, tdi, &mut self.plan).ok_or(self.refusal())?;
        self.lines += 1;
        Ok(())
    }

    /// The refusal at the line behind those so far.
    fn refusal(&self) -> Refusal {
        Refusal::new(CLOCK_LINE, self.lines + 1)
    }
}
