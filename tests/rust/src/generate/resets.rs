//! RESET fields of a network in the making.

use super::draft::{Draft, Entry};
use super::random::Random;
use crate::network::{Bit, Configuration, Node};
use crate::text::written;

impl Draft {
    /// The RESET of a segment.
    pub fn reset(&self, segment: usize) -> Option<&[Bit]> {
        match &self.nodes[segment - 1] {
            Node::Segment { reset, .. } => reset.as_deref(),
            Node::Multiplexer { .. } => None,
        }
    }

    /// Gives a segment this RESET, which stands as it is written.
    pub fn set_reset(&mut self, segment: usize, bits: &str) {
        if let Node::Segment { reset, .. } = &mut self.nodes[segment - 1] {
            *reset = Some(bits.chars().rev().map(bit).collect());
        }
    }

    /// Gives RESET fields: each segment without one has one with the given chance. Bits of steering
    /// segments are seldom unknown.
    pub fn draw_resets(&mut self, random: &mut Random, percent: usize) {
        for segment in self.segments() {
            if self.reset(segment).is_none() && random.percent(percent) {
                let bits = self.draw_start(random, segment);
                self.set_reset(segment, &bits);
            }
        }
    }

    /// Turns `hold` lines into RESET fields, each with the given chance.
    pub fn move_holds(&mut self, random: &mut Random, percent: usize) {
        for entry in std::mem::take(&mut self.entries) {
            match entry {
                Entry::Hold { segment, bits } if random.percent(percent) => {
                    self.set_reset(segment, &bits)
                }
                _ => self.entries.push(entry),
            }
        }
    }

    /// Says the same start in another way: a segment's bits stand in its RESET, or in a `hold` over a
    /// RESET of any bits, or are left as they are.
    pub fn respell(&mut self, random: &mut Random, start: &Configuration) {
        for segment in self.segments() {
            let choice = random.below(3);
            if choice == 0 {
                continue;
            }
            let is_own = |entry: &Entry| matches!(entry, Entry::Hold { segment: held, .. } if *held == segment);
            self.entries.retain(|entry| !is_own(entry));
            let bits = written(&start[segment - 1]);
            if choice == 1 {
                self.set_reset(segment, &bits);
            } else {
                let other = random.letters(&['0', '1', 'X'], bits.len());
                self.set_reset(segment, &other);
                self.entries.push(Entry::Hold { segment, bits });
            }
        }
    }
}

/// A bit as a start bit is written.
fn bit(letter: char) -> Bit {
    (letter != 'X').then_some(letter == '1')
}
