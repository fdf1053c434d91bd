//! The table "Numbers and places" of document 01, and the numbers that document 02 adds: what a call
//! returns when it refuses.

/// A refusal: its number and its place.
#[derive(Clone, Copy, Debug, PartialEq, Eq, Hash)]
pub struct Refusal {
    pub number: u32,
    pub place: usize,
}

impl Refusal {
    pub fn new(number: u32, place: usize) -> Refusal {
        Refusal { number, place }
    }
}

/// "1, line: word, field count or field form wrong; last line unended"
pub const FORM: u32 = 1;
/// "2, line: FROM, input, LEN or N outside its bounds"
pub const BOUNDS: u32 = 2;
/// "3, line: node 129, or over 4,000 bits; place 0: text too long"
pub const SIZE: u32 = 3;
/// "4, line: word out of order; no `out` (last line number + 1)"
pub const ORDER: u32 = 4;
/// "5, mux's line: SEG not a segment with shadow, or an address bit beyond it; lowest such line"
pub const ADDRESS: u32 = 5;
/// "6, line: `hold`, `write`, `read`: not a segment, BITS not LEN long, or same word and segment
/// again"
pub const ENTRY: u32 = 6;
/// "7, line: target is a steering segment"
pub const STEERING_TARGET: u32 = 7;
/// "8, line: fifth target"
pub const TARGET_COUNT: u32 = 8;
/// "9, mux's number: start not valid; first multiplexer met"
pub const START: u32 = 9;
/// "10, count: planner: over 6 steering bits"
pub const STEERING_COUNT: u32 = 10;
/// "11, 0: planner: no valid plan of at most 16 operations"
pub const NO_PLAN: u32 = 11;
/// "12, 11664: search space below 11,664 entries of 16 bits"
pub const SEARCH_SPACE: u32 = 12;
/// "13, bytes needed: buffer for plan, TMS or TDI too short"
pub const BUFFER: u32 = 13;
/// "14, line: plan: line form wrong, or line 17; place 0: text too long"
pub const PLAN_FORM: u32 = 14;
/// "15, operation: count of bits is not the path length"
pub const BIT_COUNT: u32 = 15;
/// "16, operation: configuration after it not valid"
pub const CONFIGURATION: u32 = 16;
/// "17, target: not accessed, or not holding its bits; lowest target"
pub const TARGET: u32 = 17;
/// "It refuses with 18, at the line and directly after 2, a RESET whose length is not LEN."
pub const RESET: u32 = 18;
/// "It refuses with 19, at the first offending line, a wrong line form or an empty field, a line over
/// 32,768 bytes, TMS and TDI of unequal length, entry to Select-IR, a seventeenth entry to Capture-DR,
/// more than 64,080 bytes of plan [..], or (at the last line) an end outside Run-Test/Idle."
pub const CLOCK_LINE: u32 = 19;
