//! A text of clocks followed clock by clock and written down, without regard to time. The fast version
//! is `recover`.

use crate::clocks::Clock;
use crate::controller::{next, State};
use crate::limits::{MAX_CLOCK_LINE_BYTES, MAX_OPERATIONS, MAX_PLAN_BYTES};
use crate::plan_text::write_plan;
use crate::refusal::{Refusal, CLOCK_LINE};
use crate::text::{fields, known_bit, lines, Line};

/// Why a text is refused, of the reasons that hold at the line the first in this order.
#[derive(Clone, Copy, Debug, PartialEq, Eq, PartialOrd, Ord)]
pub enum Reason {
    TooLong,
    Unended,
    Form,
    EmptyField,
    Unequal,
    SelectIr,
    Entry17,
    PlanTooLong,
    EndOutside,
}

/// A clock, the state in which it comes, and its line.
#[derive(Clone, Copy, Debug)]
pub struct FollowedClock {
    pub line: usize,
    pub state: State,
    pub clock: Clock,
}

/// What a text's clocks did.
#[derive(Debug)]
pub struct Followed {
    /// Up to the refusal.
    pub clocks: Vec<FollowedClock>,
    /// The TDI bits of each entry to Capture-DR.
    pub operations: Vec<Vec<bool>>,
    pub bytes: usize,
    /// The line and the reason, if the text is refused.
    pub refused: Option<(usize, Reason)>,
    state: State,
}

impl Followed {
    /// The plan's text, or the refusal.
    pub fn answer(&self) -> Result<Vec<u8>, Refusal> {
        match self.refused {
            Some((line, _)) => Err(Refusal::new(CLOCK_LINE, line)),
            None => Ok(write_plan(&self.operations)),
        }
    }

    /// Whether the last clock left the controller between Capture-DR and Update-DR.
    pub fn is_under_way(&self) -> bool {
        !matches!(self.state, State::RunTestIdle | State::SelectDr | State::SelectIr)
    }

    /// One clock: what it does in its state, then the entry.
    fn clock(&mut self, clock: Clock) -> Result<(), Reason> {
        if self.state == State::ShiftDr {
            self.bytes += 1;
            self.operations.last_mut().expect("an entry").push(clock.tdi);
        }
        self.state = next(self.state, clock.tms);
        if self.state == State::CaptureDr {
            self.bytes += 5;
            self.operations.push(Vec::new());
        }
        let reasons = [
            (self.state == State::SelectIr, Reason::SelectIr),
            (self.operations.len() > MAX_OPERATIONS, Reason::Entry17),
            (self.bytes > MAX_PLAN_BYTES, Reason::PlanTooLong),
        ];
        reasons.into_iter().try_for_each(|(holds, reason)| if holds { Err(reason) } else { Ok(()) })
    }

    fn line(&mut self, line: Line) -> Result<(), Reason> {
        for clock in line_clocks(line)? {
            self.clocks.push(FollowedClock { line: line.number, state: self.state, clock });
            self.clock(clock)?;
        }
        Ok(())
    }
}

pub fn follow_text(text: &[u8]) -> Followed {
    let mut followed = Followed {
        clocks: Vec::new(),
        operations: Vec::new(),
        bytes: 0,
        refused: None,
        state: State::RunTestIdle,
    };
    let mut last = 0;
    for line in lines(text) {
        last = line.number;
        if let Err(reason) = followed.line(line) {
            followed.refused = Some((line.number, reason));
            return followed;
        }
    }
    if followed.state != State::RunTestIdle {
        followed.refused = Some((last, Reason::EndOutside));
    }
    followed
}

/// The clocks of a line.
fn line_clocks(line: Line) -> Result<Vec<Clock>, Reason> {
    if line.bytes.len() + usize::from(line.ended) > MAX_CLOCK_LINE_BYTES {
        return Err(Reason::TooLong);
    }
    if !line.ended {
        return Err(Reason::Unended);
    }
    let [b"clk", tms, tdi] = fields(line.bytes)[..] else { return Err(Reason::Form) };
    let bits = |field: &[u8]| field.iter().map(|&byte| known_bit(byte)).collect::<Option<Vec<_>>>();
    let (Some(tms), Some(tdi)) = (bits(tms), bits(tdi)) else { return Err(Reason::Form) };
    if tms.is_empty() || tdi.is_empty() {
        return Err(Reason::EmptyField);
    }
    if tms.len() != tdi.len() {
        return Err(Reason::Unequal);
    }
    Ok(tms.into_iter().zip(tdi).map(|(tms, tdi)| Clock { tms, tdi }).collect())
}
