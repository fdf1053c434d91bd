//! The faults that can be put into a sound network, several for each of the refusals 1 to 9 and 18.

mod entries;
mod form;
mod nodes;
mod resets;

use super::base::Base;
use super::damage::Damaged;
use super::random::Random;

#[derive(Clone, Copy, Debug, PartialEq, Eq)]
pub enum Fault {
    /// 3; these two fill the network up, so they are put in first.
    Node129,
    Bit4001,
    /// 1
    Word,
    ExtraField,
    MissingField,
    EmptyField,
    DecimalForm,
    BitsForm,
    KindForm,
    BehindLastField,
    BlankLine,
    CsuLine,
    /// 2
    FromBound,
    InputBound,
    LenBound,
    OutBound,
    /// 4
    EntryBeforeOut,
    NodeAfterOut,
    SecondOut,
    /// 5
    AddressNoSegment,
    AddressPlain,
    AddressBeyond,
    /// 6
    EntryNoSegment,
    EntryLength,
    EntryAgain,
    /// 7
    TargetSteers,
    /// 8
    FifthTarget,
    /// 9
    StartUnknown,
    StartBeyond,
    /// 4, 1 and 3; these change the end of the text, so they are put in last.
    NoOut,
    Unended,
    TextTooLong,
    /// 9, by a RESET
    StartResetUnknown,
    StartResetBeyond,
    /// 18
    ResetShort,
    ResetLong,
    ResetNewLine,
    /// 18 on a line that is also node 129, or that goes over 4,000 bits
    ResetNode129,
    ResetBit4001,
    /// 3 on a line with a good RESET
    Node129Reset,
    Bit4001Reset,
    /// 1, by a RESET
    ResetLetter,
    ResetEmpty,
    SixFields,
    /// 2 and 4 on a line whose RESET is not LEN long
    FromBoundReset,
    LenBoundReset,
    ResetAfterOut,
}

use Fault::*;

/// The faults that need no RESET field, in the order in which they are put into one text.
pub const FAULTS: [Fault; 32] = [
    Node129,
    Bit4001,
    Word,
    ExtraField,
    MissingField,
    EmptyField,
    DecimalForm,
    BitsForm,
    KindForm,
    BehindLastField,
    BlankLine,
    CsuLine,
    FromBound,
    InputBound,
    LenBound,
    OutBound,
    EntryBeforeOut,
    NodeAfterOut,
    SecondOut,
    AddressNoSegment,
    AddressPlain,
    AddressBeyond,
    EntryNoSegment,
    EntryLength,
    EntryAgain,
    TargetSteers,
    FifthTarget,
    StartUnknown,
    StartBeyond,
    NoOut,
    Unended,
    TextTooLong,
];

/// The faults of a line with a RESET field, in the same order. They are put in behind the first two of
/// the others.
pub const RESET_FAULTS: [Fault; 15] = [
    StartResetUnknown,
    StartResetBeyond,
    ResetShort,
    ResetLong,
    ResetNode129,
    ResetBit4001,
    Node129Reset,
    Bit4001Reset,
    ResetNewLine,
    ResetLetter,
    ResetEmpty,
    SixFields,
    FromBoundReset,
    LenBoundReset,
    ResetAfterOut,
];

/// All faults, in the order in which they are put into one text.
pub fn all_faults() -> Vec<Fault> {
    [&FAULTS[..2], &RESET_FAULTS, &FAULTS[2..]].concat()
}

/// So many faults of different numbers, one of `first` and the others of `all`.
pub fn draw_faults(
    random: &mut Random,
    first: &[Fault],
    all: &[Fault],
    count: usize,
) -> Vec<Fault> {
    let mut faults = vec![*random.pick(first)];
    while faults.len() < count {
        let fault = *random.pick(all);
        if !faults.iter().any(|other| other.number() == fault.number()) {
            faults.push(fault);
        }
    }
    faults
}

impl Fault {
    /// The number that refuses a text with this fault alone.
    pub fn number(self) -> u32 {
        match self {
            Word | ExtraField | MissingField | EmptyField | DecimalForm | BitsForm | KindForm => 1,
            BehindLastField | BlankLine | CsuLine | Unended => 1,
            ResetLetter | ResetEmpty | SixFields => 1,
            FromBound | InputBound | LenBound | OutBound | FromBoundReset | LenBoundReset => 2,
            Node129 | Bit4001 | TextTooLong | Node129Reset | Bit4001Reset => 3,
            EntryBeforeOut | NodeAfterOut | SecondOut | NoOut | ResetAfterOut => 4,
            AddressNoSegment | AddressPlain | AddressBeyond => 5,
            EntryNoSegment | EntryLength | EntryAgain => 6,
            TargetSteers => 7,
            FifthTarget => 8,
            StartUnknown | StartBeyond | StartResetUnknown | StartResetBeyond => 9,
            ResetShort | ResetLong | ResetNewLine | ResetNode129 | ResetBit4001 => 18,
        }
    }

    /// Puts the fault in. `None` if no sound line is left that could have it.
    pub fn put(self, random: &mut Random, base: &Base, damaged: &mut Damaged) -> Option<()> {
        if RESET_FAULTS.contains(&self) {
            return resets::put_reset(self, random, base, damaged);
        }
        match self.number() {
            1 => form::put_form(self, random, damaged),
            2 => nodes::put_bounds(self, random, damaged),
            3 => nodes::put_size(self, random, damaged),
            4 => nodes::put_order(self, random, base, damaged),
            5 => nodes::put_address(self, random, base, damaged),
            6 => entries::put_entry(self, random, base, damaged),
            7 => entries::put_steering_target(random, base, damaged),
            8 => entries::put_fifth_target(random, base, damaged),
            _ => entries::put_start(self, random, base, damaged),
        }
    }
}
