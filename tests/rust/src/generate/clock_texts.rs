//! Texts of clocks of all kinds. They have random numbers of their own, so those of `cases` stay what
//! they are.

use super::cases::scramble;
use super::clock_faults::{damaged_clocks, ClockFault, CLOCK_FAULTS};
use super::clock_lines::{clk_line, draw_cut, idle_line, ClockLines, Cut, LONGEST_LINE};
use super::clock_walk::{draw_style, walk_of, Style, Walk, PLAIN};
use super::random::Random;
use crate::controller::{next, State};
use crate::limits::{MAX_CLOCK_LINE_BYTES, MAX_OPERATIONS, MAX_PLAN_BYTES};
use crate::plan_text::write_plan;
use crate::programs;
use crate::refusal::{Refusal, CLOCK_LINE};

/// Where the random numbers of a seed differ from those of `cases::case`.
const STREAM: u64 = 0x434c_4f43_4b53_0000;

/// A text and, where the way it is made tells it, the plan or the refusal that it gives.
#[derive(Clone, Debug)]
pub struct ClockText {
    pub text: Vec<u8>,
    pub known: Option<Result<Vec<u8>, Refusal>>,
}

impl ClockText {
    fn new(text: Vec<u8>) -> ClockText {
        ClockText { text, known: None }
    }

    fn refused(text: Vec<u8>, line: usize) -> ClockText {
        ClockText { text, known: Some(Err(Refusal::new(CLOCK_LINE, line))) }
    }

    /// A walk cut into lines.
    fn of_walk(random: &mut Random, walk: &Walk, cut: Cut) -> ClockText {
        let text = ClockLines::new(random, walk, cut);
        let known = match walk.over {
            Some(clock) => Err(Refusal::new(CLOCK_LINE, text.line_of(clock))),
            None => Ok(write_plan(&walk.operations)),
        };
        ClockText { text: text.lines.concat(), known: Some(known) }
    }
}

/// The random numbers of a seed.
pub fn clock_random(seed: u64) -> Random {
    Random::new(seed ^ STREAM)
}

/// The text of a seed.
pub fn clock_text(seed: u64) -> ClockText {
    draw_clock_text(&mut clock_random(seed))
}

pub fn draw_clock_text(random: &mut Random) -> ClockText {
    match random.below(64) {
        0..=7 => written(random),
        8..=27 => draw_walked(random),
        28..=31 => draw_wandering(random),
        32..=47 => draw_damaged_clocks(random, 1),
        48..=55 => draw_damaged_clocks(random, 2),
        56..=60 => {
            let text = draw_walked(random).text;
            ClockText::new(scramble(random, text))
        }
        61 => draw_edge_line(random),
        62 => draw_edge_plan(random),
        _ => draw_odd(random),
    }
}

/// Operations of up to so many bits.
pub fn draw_operations(random: &mut Random, count: usize, most: usize) -> Vec<Vec<bool>> {
    let mut operation = || {
        let bits = random.below(most + 1);
        (0..bits).map(|_| random.bit()).collect()
    };
    (0..count).map(|_| operation()).collect()
}

/// The clocks that the clock writer writes for a plan.
fn written(random: &mut Random) -> ClockText {
    let count = random.below(MAX_OPERATIONS + 1);
    let plan = write_plan(&draw_operations(random, count, 20));
    ClockText { text: programs::clock(&plan), known: Some(Ok(plan)) }
}

/// Clocks as a probe might store them.
pub fn draw_walked(random: &mut Random) -> ClockText {
    let (style, cut) = (draw_style(random), draw_cut(random));
    let count = *random.pick(&[0, 1, 1, 2, 2, 3, 5, MAX_OPERATIONS, MAX_OPERATIONS + 1]);
    let operations = draw_operations(random, count, 12);
    let walk = walk_of(random, style, operations);
    ClockText::of_walk(random, &walk, cut)
}

/// Any way of the controller, seldom to Select-IR; of three texts two come back to Run-Test/Idle.
fn draw_wandering(random: &mut Random) -> ClockText {
    let (mut tms, mut state) = (Vec::new(), State::RunTestIdle);
    let (least, home) = (random.between(1, 120), random.below(3) > 0);
    while tms.len() < least || (home && state != State::RunTestIdle && tms.len() < 2 * least + 40) {
        let ones = match state {
            State::SelectDr => 2,
            State::RunTestIdle => 30,
            _ => 50,
        };
        tms.push(random.percent(ones));
        state = next(state, tms[tms.len() - 1]);
    }
    let (walk, cut) = (Walk::of_tms(random, &tms), draw_cut(random));
    ClockText::new(ClockLines::new(random, &walk, cut).lines.concat())
}

/// A text with so many different faults.
pub fn draw_damaged_clocks(random: &mut Random, count: usize) -> ClockText {
    let mut faults: Vec<ClockFault> = Vec::new();
    while faults.len() < count {
        let fault = *random.pick(&CLOCK_FAULTS);
        // Long texts take long, so that they come seldom.
        let long = matches!(fault, ClockFault::PlanTooLong | ClockFault::TooLong);
        if !faults.contains(&fault) && (!long || random.percent(30)) {
            faults.push(fault);
        }
    }
    let (text, refusal) = damaged_clocks(random, &faults);
    ClockText { text, known: Some(Err(refusal)) }
}

/// A text with a line that is as long as a line may be, or a little longer or shorter, behind some
/// lines and before others.
pub fn draw_edge_line(random: &mut Random) -> ClockText {
    let before = random.below(3);
    let mut text = idle_line(3).repeat(before);
    let good = match random.below(6) {
        0 | 1 => {
            let clocks = LONGEST_LINE + random.below(2);
            text.extend(idle_line(clocks));
            clocks == LONGEST_LINE
        }
        2 => {
            // One field has more bits, so that the line may have any length.
            let bytes = MAX_CLOCK_LINE_BYTES + random.below(3) - 1;
            let tms = random.below(bytes - 5);
            text.extend(clk_line(&vec![b'0'; tms], &vec![b'0'; bytes - 6 - tms]));
            2 * tms == bytes - 6 && bytes == MAX_CLOCK_LINE_BYTES
        }
        3 => {
            let length = *random.pick(&[32_767, 32_768, 32_769, 65_536, 100_000]);
            text.extend(vec![*random.pick(b"0c\t\0"); length]);
            false
        }
        _ => return draw_long_passage(random),
    };
    text.extend(idle_line(2).repeat(random.below(3)));
    match good {
        true => ClockText { text, known: Some(Ok(Vec::new())) },
        false => ClockText::refused(text, before + 1),
    }
}

/// A passage whose first line is of 16,381 clocks.
fn draw_long_passage(random: &mut Random) -> ClockText {
    let style = Style { wait: *random.pick(&[1, 20_000]), ..draw_style(random) };
    let bits = *random.pick(&[0, 3, 16_375, 16_376, 16_377, 40_000]);
    let operations = vec![(0..bits).map(|_| random.bit()).collect()];
    let walk = walk_of(random, style, operations);
    ClockText::of_walk(random, &walk, Cut::Long)
}

/// As many entries or as many bytes of plan as may be, or one more.
pub fn draw_edge_plan(random: &mut Random) -> ClockText {
    let style = if random.percent(30) { PLAIN } else { draw_style(random) };
    let cut = *random.pick(&[Cut::Passages, Cut::Upto(3_000), Cut::Long]);
    let count = *random.pick(&[1, 2, 15, MAX_OPERATIONS]);
    let bytes = MAX_PLAN_BYTES + random.below(3);
    let each = bytes / count - 5;
    let mut lengths = vec![each; count];
    lengths[random.below(count)] += bytes - count * (each + 5);
    // The last bytes may come with an entry.
    if count < MAX_OPERATIONS && random.percent(40) {
        let less = *random.pick(&[1, 4, 5, 6]);
        lengths[count - 1] -= less;
        lengths.push(0);
    }
    let operation = |bits: usize| (0..bits).map(|_| random.bit()).collect();
    let operations = lengths.into_iter().map(operation).collect();
    let walk = walk_of(random, style, operations);
    ClockText::of_walk(random, &walk, cut)
}

/// Short texts and bytes that belong in no text.
fn draw_odd(random: &mut Random) -> ClockText {
    let known: [(&[u8], Option<usize>); 10] = [
        (b"", None),
        (b"clk\t0\t1\n", None),
        (b"\n", Some(1)),
        (b"\0", Some(1)),
        (b"\xef\xbb\xbfclk\t0\t0\n", Some(1)),
        (b"clk\t0\t0\n\n", Some(2)),
        (b"clk\t0\t0\n\n\n", Some(2)),
        (b"clk\t0\t0\r\n", Some(1)),
        (b"clk\t0\t0\nfail\t19\t1\n", Some(2)),
        (b"csu\t0\n", Some(1)),
    ];
    match *random.pick(&known) {
        (text, None) => ClockText { text: text.to_vec(), known: Some(Ok(Vec::new())) },
        (text, Some(line)) => ClockText::refused(text.to_vec(), line),
    }
}
