//! The forms that a text of clocks has, so that tests can count them.

use super::clock_lines::LONGEST_LINE;
use super::followed::{follow_text, Followed, FollowedClock, Reason};
use crate::controller::State;
use crate::limits::{MAX_CLOCK_LINE_BYTES, MAX_OPERATIONS, MAX_PLAN_BYTES};
use crate::text::{fields, lines};

/// The names of the forms that a text has.
pub fn clock_forms(text: &[u8]) -> Vec<&'static str> {
    let followed = follow_text(text);
    let mut forms = Forms::default();
    forms.note_text(text);
    match followed.refused {
        Some((line, reason)) => forms.note_refused(&followed, line, reason),
        None => forms.note_accepted(&followed),
    }
    forms.names
}

/// The name of a reason.
fn reason_name(reason: Reason) -> &'static str {
    match reason {
        Reason::TooLong => "refused: line too long",
        Reason::Unended => "refused: last line unended",
        Reason::Form => "refused: form",
        Reason::EmptyField => "refused: empty field",
        Reason::Unequal => "refused: unequal lengths",
        Reason::SelectIr => "refused: entry to Select-IR",
        Reason::Entry17 => "refused: seventeenth entry",
        Reason::PlanTooLong => "refused: plan too long",
        Reason::EndOutside => "refused: end outside Run-Test/Idle",
    }
}

/// The passages of an accepted text: the clocks from each one's entry to its update.
fn passages(clocks: &[FollowedClock]) -> Vec<&[FollowedClock]> {
    let mut passages = Vec::new();
    let mut rest = clocks;
    while let Some(first) = rest.iter().position(|at| at.state == State::CaptureDr) {
        let last = rest.iter().position(|at| at.state == State::UpdateDr).expect("an update");
        passages.push(&rest[first..=last]);
        rest = &rest[last + 1..];
    }
    passages
}

#[derive(Default)]
struct Forms {
    names: Vec<&'static str>,
}

impl Forms {
    fn note(&mut self, name: &'static str, holds: bool) {
        self.names.extend(holds.then_some(name));
    }

    /// What any text has.
    fn note_text(&mut self, text: &[u8]) {
        self.note("empty text", text.is_empty());
        self.note("CR", text.contains(&b'\r'));
        self.note("NUL", text.contains(&0));
        self.note("byte above 127", text.iter().any(|&byte| byte > 127));
        let all: Vec<_> = lines(text).collect();
        self.note("empty line", all.iter().any(|line| line.bytes.is_empty()));
        let bytes = |wanted: &dyn Fn(usize) -> bool| {
            all.iter().any(|line| line.ended && wanted(line.bytes.len() + 1))
        };
        self.note("line of 32,767 bytes", bytes(&|bytes| bytes == MAX_CLOCK_LINE_BYTES - 1));
        self.note("line of 32,768 bytes", bytes(&|bytes| bytes == MAX_CLOCK_LINE_BYTES));
        self.note("line of 32,769 bytes", bytes(&|bytes| bytes == MAX_CLOCK_LINE_BYTES + 1));
        self.note("line of more bytes", bytes(&|bytes| bytes > MAX_CLOCK_LINE_BYTES + 1));
        let clocks = |wanted: usize| {
            let equal = |bytes: &[u8]| match fields(bytes)[..] {
                [_, tms, tdi] => tms.len() == wanted && tdi.len() == wanted,
                _ => false,
            };
            all.iter().any(|line| line.bytes.len() > 2 * wanted && equal(line.bytes))
        };
        self.note("line of 16,381 clocks", clocks(LONGEST_LINE));
        self.note("line of 16,382 clocks", clocks(LONGEST_LINE + 1));
    }

    /// What a refused text has.
    fn note_refused(&mut self, followed: &Followed, line: usize, reason: Reason) {
        self.note(reason_name(reason), true);
        self.note("refused at line 1", line == 1);
        self.note("refused behind line 1", line > 1);
        self.note("refused within a passage", followed.is_under_way());
        let over = reason == Reason::PlanTooLong;
        self.note("refused: 64,081 bytes of plan", over && followed.bytes == MAX_PLAN_BYTES + 1);
        let by_entry = followed.clocks.last().is_some_and(|at| at.state == State::SelectDr);
        self.note("refused: plan too long by an entry", over && by_entry);
    }

    /// What an accepted text has.
    fn note_accepted(&mut self, followed: &Followed) {
        let clocks = &followed.clocks[..];
        self.note("accepted", true);
        self.note("16 entries", followed.operations.len() == MAX_OPERATIONS);
        self.note("64,080 bytes of plan", followed.bytes == MAX_PLAN_BYTES);
        let outside = |at: &FollowedClock| at.state != State::ShiftDr && at.clock.tdi;
        self.note("TDI 1 outside Shift-DR", clocks.iter().any(outside));
        let pair = |from: State, to: State| {
            clocks.windows(2).any(|pair| pair[0].state == from && pair[1].state == to)
        };
        self.note("idle stretch", pair(State::RunTestIdle, State::RunTestIdle));
        self.note("wait in Pause-DR", pair(State::PauseDr, State::PauseDr));
        self.note("shifting on after Exit2-DR", pair(State::Exit2Dr, State::ShiftDr));
        self.note("Exit2-DR to Update-DR", pair(State::Exit2Dr, State::UpdateDr));
        self.note("Update-DR to Select-DR", pair(State::UpdateDr, State::SelectDr));
        let one_each = clocks.windows(2).all(|pair| pair[0].line < pair[1].line);
        self.note("a clock a line", clocks.len() > 4 && one_each);
        self.note_passages(&passages(clocks));
    }

    /// What the passages of an accepted text have.
    fn note_passages(&mut self, passages: &[&[FollowedClock]]) {
        let has =
            |passage: &[FollowedClock], state: State| passage.iter().any(|at| at.state == state);
        let mut note = |name, test: &dyn Fn(&[FollowedClock]) -> bool| {
            self.note(name, passages.iter().any(|passage| test(passage)));
        };
        let without_bits = |passage: &[FollowedClock]| !has(passage, State::ShiftDr);
        note("passage without bits", &without_bits);
        note("passage without bits, with a pause", &|passage| {
            without_bits(passage) && has(passage, State::PauseDr)
        });
        note("pause before the first bit", &|passage| {
            passage[1].state == State::Exit1Dr && has(passage, State::ShiftDr)
        });
        note("two pauses in a passage", &|passage| {
            passage.iter().filter(|at| at.state == State::Exit2Dr).count() >= 2
        });
        let line = |at: Option<&FollowedClock>| at.map_or(0, |at| at.line);
        note("passage over several lines", &|passage| line(passage.first()) < line(passage.last()));
        note("passage over four lines or more", &|passage| {
            line(passage.first()) + 3 <= line(passage.last())
        });
        let together =
            passages.windows(2).any(|pair| line(pair[0].first()) == line(pair[1].last()));
        self.note("several passages in a line", together);
    }
}
