//! Clocks as `clk` lines.

use super::clock_walk::Walk;
use super::random::Random;

/// "a line over 32,768 bytes": so many clocks fit into a line.
pub const LONGEST_LINE: usize = 16_381;

/// Where clocks are cut into lines.
#[derive(Clone, Copy, Debug, PartialEq, Eq)]
pub enum Cut {
    /// Behind the clock in Update-DR of each passage, as far as the lines get not too long.
    Passages,
    /// Behind each clock.
    Clocks,
    /// Into lines of up to so many clocks.
    Upto(usize),
    /// Into as few lines as can be.
    Long,
}

pub fn draw_cut(random: &mut Random) -> Cut {
    match random.below(12) {
        0..=2 => Cut::Passages,
        3 => Cut::Clocks,
        4..=8 => Cut::Upto(*random.pick(&[2, 5, 20, 100])),
        _ => Cut::Long,
    }
}

/// The clocks in lines.
pub struct ClockLines {
    /// For each line the index behind its last clock.
    ends: Vec<usize>,
    /// Each with its line end.
    pub lines: Vec<Vec<u8>>,
}

impl ClockLines {
    pub fn new(random: &mut Random, walk: &Walk, cut: Cut) -> ClockLines {
        let (mut ends, mut lines) = (Vec::new(), Vec::new());
        let mut start = 0;
        while start < walk.tms.len() {
            let longest = walk.tms.len().min(start + LONGEST_LINE);
            let end = longest.min(match cut {
                Cut::Passages => next_update(walk, start) + 1,
                Cut::Clocks => start + 1,
                Cut::Upto(most) => start + random.between(1, most),
                Cut::Long => longest,
            });
            lines.push(clk_line(&walk.tms[start..end], &walk.tdi[start..end]));
            ends.push(end);
            start = end;
        }
        ClockLines { ends, lines }
    }

    /// The number of the line that has this clock.
    pub fn line_of(&self, clock: usize) -> usize {
        self.ends.partition_point(|&end| end <= clock) + 1
    }
}

fn next_update(walk: &Walk, start: usize) -> usize {
    *walk.updates.iter().find(|&&update| update >= start).unwrap_or(&walk.tms.len())
}

/// The line of these fields, whatever they are.
pub fn clk_line(tms: &[u8], tdi: &[u8]) -> Vec<u8> {
    [b"clk\t", tms, b"\t", tdi, b"\n"].concat()
}

/// A line of so many clocks with TMS 0 and TDI 0.
pub fn idle_line(clocks: usize) -> Vec<u8> {
    let zeros = vec![b'0'; clocks];
    clk_line(&zeros, &zeros)
}
