//! Clocks as a probe might store them: passages with waiting, pauses and any TDI, and what they must
//! give back.

use super::random::Random;
use crate::limits::{MAX_OPERATIONS, MAX_PLAN_BYTES};
use crate::text::bit_byte;

/// How often, in a hundred, something is done on the way.
#[derive(Clone, Copy, Debug)]
pub struct Style {
    /// Waiting in Run-Test/Idle before a passage and at the end.
    pub idle: usize,
    /// Going through Pause-DR instead of straight on.
    pub pause: usize,
    /// Going from Update-DR straight to Select-DR.
    pub straight: usize,
    /// TDI 1 at a clock outside Shift-DR.
    pub ones: usize,
    /// The most clocks of one wait.
    pub wait: usize,
}

/// As the clock writer writes.
pub const PLAIN: Style = Style { idle: 0, pause: 0, straight: 0, ones: 0, wait: 1 };

pub fn draw_style(random: &mut Random) -> Style {
    Style {
        idle: *random.pick(&[0, 30, 100]),
        pause: *random.pick(&[0, 5, 30, 80]),
        straight: *random.pick(&[0, 40, 100]),
        ones: *random.pick(&[0, 50, 100]),
        wait: *random.pick(&[1, 3, 40]),
    }
}

/// TMS and TDI, a byte for each clock, and what is known of them.
#[derive(Clone, Debug, Default)]
pub struct Walk {
    pub tms: Vec<u8>,
    pub tdi: Vec<u8>,
    /// The bits of each passage.
    pub operations: Vec<Vec<bool>>,
    /// The indices of each passage's clocks in Select-DR and in Update-DR.
    pub selects: Vec<usize>,
    pub updates: Vec<usize>,
    /// The index of the first clock that goes over a limit.
    pub over: Option<usize>,
    /// "5 for each entry, 1 for each bit"
    bytes: usize,
}

/// From Run-Test/Idle through a passage for each of these operations and back.
pub fn walk_of(random: &mut Random, style: Style, operations: Vec<Vec<bool>>) -> Walk {
    let mut walk = Walk::default();
    walk.wait(random, style);
    for (index, bits) in operations.iter().enumerate() {
        if index > 0 && random.percent(style.straight) {
            walk.go(random, style, &[true]);
        } else {
            walk.go(random, style, &[false][..usize::from(index > 0)]);
            walk.wait(random, style);
            walk.go(random, style, &[true]);
        }
        walk.passage(random, style, bits);
    }
    if !operations.is_empty() {
        walk.go(random, style, &[false]);
        walk.wait(random, style);
    }
    walk.operations = operations;
    walk
}

impl Walk {
    fn clock(&mut self, tms: bool, tdi: bool) {
        self.tms.push(bit_byte(tms));
        self.tdi.push(bit_byte(tdi));
    }

    /// Clocks outside Shift-DR.
    fn go(&mut self, random: &mut Random, style: Style, tms: &[bool]) {
        for &tms in tms {
            self.clock(tms, random.percent(style.ones));
        }
    }

    /// Waits in Run-Test/Idle, or does not.
    fn wait(&mut self, random: &mut Random, style: Style) {
        if random.percent(style.idle) {
            let clocks = random.between(1, style.wait);
            self.go(random, style, &vec![false; clocks]);
        }
    }

    /// Counts bytes of plan for the next clock.
    fn count(&mut self, bytes: usize) {
        self.bytes += bytes;
        if self.bytes > MAX_PLAN_BYTES || self.selects.len() > MAX_OPERATIONS {
            self.over.get_or_insert(self.tms.len());
        }
    }

    /// From Select-DR to Update-DR.
    fn passage(&mut self, random: &mut Random, style: Style, bits: &[bool]) {
        self.selects.push(self.tms.len());
        self.count(5);
        self.go(random, style, &[false]);
        let mut rest = bits;
        // In Capture-DR.
        if rest.is_empty() || random.percent(style.pause) {
            self.go(random, style, &[true]);
            self.exit(random, style, !rest.is_empty());
        } else {
            self.go(random, style, &[false]);
        }
        while !rest.is_empty() {
            let kept = if random.percent(style.pause) { random.below(rest.len()) } else { 0 };
            let (now, later) = rest.split_at(rest.len() - kept);
            self.shift(now);
            rest = later;
            self.exit(random, style, !rest.is_empty());
        }
        self.updates.push(self.tms.len());
    }

    /// From Exit1-DR to Update-DR or, through Pause-DR, to Shift-DR.
    fn exit(&mut self, random: &mut Random, style: Style, to_shift: bool) {
        if !to_shift && !random.percent(style.pause) {
            return self.go(random, style, &[true]);
        }
        let clocks = random.between(1, style.wait);
        self.go(random, style, &vec![false; clocks]);
        self.go(random, style, &[true, !to_shift]);
    }

    /// At least one bit, to Exit1-DR.
    fn shift(&mut self, bits: &[bool]) {
        for (index, &bit) in bits.iter().enumerate() {
            self.count(1);
            self.clock(index + 1 == bits.len(), bit);
        }
    }

    /// Leaves out what comes after this many clocks.
    pub fn truncate(&mut self, clocks: usize) {
        self.tms.truncate(clocks);
        self.tdi.truncate(clocks);
        self.over = self.over.filter(|&clock| clock < clocks);
    }

    /// A clock for each TMS, with any TDI.
    pub fn of_tms(random: &mut Random, tms: &[bool]) -> Walk {
        let mut walk = Walk::default();
        tms.iter().for_each(|&tms| walk.clock(tms, random.bit()));
        walk
    }
}
