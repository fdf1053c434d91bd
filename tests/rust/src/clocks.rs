//! The clock writer: a plan becomes controller clocks.

use crate::plan_text::parse_plan;
use crate::refusal::{Refusal, BUFFER};
use crate::text::bit_byte;

/// One controller clock.
#[derive(Clone, Copy, Debug, PartialEq, Eq)]
pub struct Clock {
    pub tms: bool,
    pub tdi: bool,
}

/// "An operation of n bits is n + 5 clocks from Run-Test/Idle back to it: TMS 1, 0, 0, then n - 1
/// zeros and a 1, then 1, 0; for n = 0: 1, 0, 1, 1, 0. TDI is 0 outside Shift-DR."
pub fn operation_clocks(bits: &[bool]) -> impl Iterator<Item = Clock> + '_ {
    let without_bit = |tms| Clock { tms, tdi: false };
    // The third clock, in Capture-DR, goes to Shift-DR, or to Exit1-DR if nothing is shifted.
    let before = [true, false, bits.is_empty()].map(without_bit);
    let after = [true, false].map(without_bit);
    let last = bits.len().saturating_sub(1);
    let shifts = bits.iter().enumerate();
    let shifts = shifts.map(move |(index, &tdi)| Clock { tms: index == last, tdi });
    before.into_iter().chain(shifts).chain(after)
}

/// The clocks of a plan: "its operations' in turn".
pub fn plan_clocks(operations: &[Vec<bool>]) -> impl Iterator<Item = Clock> + '_ {
    operations.iter().flat_map(|bits| operation_clocks(bits))
}

/// Writes the clocks of a plan text and gives their count. "The TMS and TDI buffers take one
/// byte, `0` or `1`, for each clock." "Clock writer, which gets a plan text only: 14, 13."
/// "Output buffers change only on success, in the bytes needed."
pub fn write_clocks(plan_text: &[u8], tms: &mut [u8], tdi: &mut [u8]) -> Result<usize, Refusal> {
    let operations = parse_plan(plan_text)?;
    let needed = plan_clocks(&operations).count();
    if tms.len() < needed || tdi.len() < needed {
        return Err(Refusal::new(BUFFER, needed));
    }
    for (clock, (tms, tdi)) in plan_clocks(&operations).zip(tms.iter_mut().zip(tdi)) {
        *tms = bit_byte(clock.tms);
        *tdi = bit_byte(clock.tdi);
    }
    Ok(needed)
}
