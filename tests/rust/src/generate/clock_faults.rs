//! Texts of clocks that are refused, and the line of refusal 19.

use super::clock_lines::{clk_line, draw_cut, ClockLines, LONGEST_LINE};
use super::clock_walk::{draw_style, walk_of, Walk};
use super::random::Random;
use crate::limits::{MAX_OPERATIONS, MAX_PLAN_BYTES};
use crate::refusal::{Refusal, CLOCK_LINE};

#[derive(Clone, Copy, Debug, PartialEq, Eq)]
pub enum ClockFault {
    Word,
    NoTab,
    MissingField,
    FurtherField,
    EmptyTms,
    EmptyTdi,
    EmptyBoth,
    WrongTms,
    WrongTdi,
    LongerTms,
    LongerTdi,
    MovedTab,
    CarriageReturn,
    BlankLine,
    Binary,
    TooLong,
    Unended,
    SelectIr,
    Entry17,
    PlanTooLong,
    EndOutside,
}

use ClockFault::*;

pub const CLOCK_FAULTS: [ClockFault; 21] = [
    Word,
    NoTab,
    MissingField,
    FurtherField,
    EmptyTms,
    EmptyTdi,
    EmptyBoth,
    WrongTms,
    WrongTdi,
    LongerTms,
    LongerTdi,
    MovedTab,
    CarriageReturn,
    BlankLine,
    Binary,
    TooLong,
    Unended,
    SelectIr,
    Entry17,
    PlanTooLong,
    EndOutside,
];

impl ClockFault {
    /// Whether one line has it, whatever the clocks are.
    fn is_of_a_line(self) -> bool {
        !matches!(self, Unended | SelectIr | Entry17 | PlanTooLong | EndOutside)
    }
}

/// Bytes that are no bit: some differ from one in a single place.
const WRONG: &[u8] = b"2/X -\t\r\0\x10\x20\x34\x38\x70\xb0\xb1\xff";

/// A text with these faults, and its refusal at the lowest line of theirs.
pub fn damaged_clocks(random: &mut Random, faults: &[ClockFault]) -> (Vec<u8>, Refusal) {
    let has = |fault: ClockFault| faults.contains(&fault);
    let mut walk = draw_walk(random, has(Entry17), has(PlanTooLong));
    if has(EndOutside) {
        // From Select-DR up to Update-DR of the last passage.
        let [from, to] = [&walk.selects, &walk.updates].map(|clocks| *clocks.last().expect("one"));
        walk.truncate(random.between(from, to));
    }
    let mut first = walk.over;
    if has(SelectIr) {
        let selects: Vec<usize> =
            walk.selects.iter().copied().filter(|&clock| clock < walk.tms.len()).collect();
        if !selects.is_empty() {
            let clock = *random.pick(&selects);
            walk.tms[clock] = b'1';
            first = Some(first.map_or(clock, |first| first.min(clock)));
        }
    }
    let cut = draw_cut(random);
    let mut text = ClockLines::new(random, &walk, cut);
    let mut place = first.map_or(usize::MAX, |clock| text.line_of(clock));
    if has(EndOutside) {
        place = place.min(text.lines.len());
    }
    place = place.min(spoil_lines(random, &mut text.lines, faults));
    (text.lines.concat(), Refusal::new(CLOCK_LINE, place))
}

/// A walk with at least one passage that is over a limit only where that is asked for.
fn draw_walk(random: &mut Random, entry_17: bool, too_long: bool) -> Walk {
    let style = draw_style(random);
    let count = match (entry_17, too_long) {
        (true, _) => MAX_OPERATIONS + random.between(1, 3),
        (_, true) => random.between(1, MAX_OPERATIONS),
        _ => random.between(1, 6),
    };
    let mut lengths: Vec<usize> = (0..count).map(|_| random.below(12)).collect();
    if too_long {
        let counted: usize = lengths.iter().map(|bits| bits + 5).sum();
        lengths[random.below(count)] += MAX_PLAN_BYTES - counted + random.between(1, 3);
    }
    let operation = |bits: usize| (0..bits).map(|_| random.bit()).collect();
    let operations = lengths.into_iter().map(operation).collect();
    walk_of(random, style, operations)
}

/// Puts the faults of lines, each into a line of its own, as long as there is one. Gives the lowest of
/// these lines.
fn spoil_lines(random: &mut Random, lines: &mut [Vec<u8>], faults: &[ClockFault]) -> usize {
    let mut lowest = usize::MAX;
    let mut places: Vec<usize> = (0..lines.len()).collect();
    if faults.contains(&Unended) {
        lowest = lines.len();
        places.pop();
        lines[lowest - 1].pop();
    }
    random.shuffle(&mut places);
    let of_a_line = faults.iter().filter(|fault| fault.is_of_a_line());
    for (&fault, index) in of_a_line.zip(places) {
        lines[index] = spoiled(random, &lines[index], fault);
        lowest = lowest.min(index + 1);
    }
    lowest
}

/// The line with this fault.
fn spoiled(random: &mut Random, line: &[u8], fault: ClockFault) -> Vec<u8> {
    let clocks = (line.len() - 6) / 2;
    let (tms, tdi) = (&line[4..4 + clocks], &line[5 + clocks..5 + 2 * clocks]);
    let bit = *random.pick(b"01");
    match fault {
        Word => {
            [random.pick(&[&b"CLK"[..], b"csu", b"clK", b" clk", b"cl", b""]), &line[3..]].concat()
        }
        NoTab => [random.pick(&[&b"clk"[..], b"clk ", b"clk\0"]), &line[4..]].concat(),
        MissingField => [b"clk\t", tms, b"\n"].concat(),
        FurtherField => clk_line(tms, &[tdi, *random.pick(&[&b"\t"[..], b"\t0"])].concat()),
        EmptyTms => clk_line(b"", tdi),
        EmptyTdi => clk_line(tms, b""),
        EmptyBoth => clk_line(b"", b""),
        WrongTms => clk_line(&with_wrong(random, tms), tdi),
        WrongTdi => clk_line(tms, &with_wrong(random, tdi)),
        LongerTms => clk_line(&[tms, &[bit]].concat(), tdi),
        LongerTdi => clk_line(tms, &[tdi, &[bit]].concat()),
        MovedTab => clk_line(&tms[1..], &[&tms[..1], tdi].concat()),
        CarriageReturn => clk_line(tms, &[tdi, b"\r"].concat()),
        BlankLine => b"\n".to_vec(),
        Binary => binary_line(random),
        _ => {
            let more = vec![b'0'; LONGEST_LINE - clocks + random.between(1, 40)];
            clk_line(&[tms, &more].concat(), &[tdi, &more].concat())
        }
    }
}

/// A field with one byte that is no bit.
fn with_wrong(random: &mut Random, field: &[u8]) -> Vec<u8> {
    let mut field = field.to_vec();
    let index = random.below(field.len());
    field[index] = *random.pick(WRONG);
    field
}

/// Any bytes but line ends; the first is above 127.
fn binary_line(random: &mut Random) -> Vec<u8> {
    let count = random.between(0, 40);
    let bytes = (0..count).map(|_| random.below(256) as u8).filter(|&byte| byte != b'\n');
    [vec![0xff], bytes.collect(), b"\n".to_vec()].concat()
}
