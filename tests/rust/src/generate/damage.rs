//! A network text with faults in it, and the refusal that the order of the documents gives.

use super::base::Base;
use super::draft::join;
use super::random::Random;
use crate::limits::MAX_NETWORK_BYTES;
use crate::refusal::{Refusal, ADDRESS, FORM, ORDER, SIZE, START};

/// A line and what is wrong with it.
#[derive(Clone, Debug)]
pub struct DamagedLine {
    pub text: String,
    /// The number that refuses this line, if the reader comes to it.
    pub fault: Option<u32>,
    /// Whether it is a multiplexer that the `out` line refuses with 5.
    pub bad_address: bool,
    /// Whether it is the `out` line, sound or not, of the sound network.
    pub is_out: bool,
}

impl DamagedLine {
    fn new(text: String, fault: Option<u32>) -> DamagedLine {
        DamagedLine { text, fault, bad_address: false, is_out: false }
    }

    pub fn fields(&self) -> Vec<&str> {
        self.text.split('\t').collect()
    }

    pub fn word(&self) -> &str {
        self.fields()[0]
    }

    pub fn is_sound(&self) -> bool {
        self.fault.is_none() && !self.bad_address
    }

    pub fn replace_field(&mut self, field: usize, value: impl AsRef<str>) {
        let mut fields = self.fields();
        fields[field] = value.as_ref();
        self.text = fields.join("\t");
    }

    /// Gives a segment's line this RESET.
    pub fn set_reset(&mut self, reset: &str) {
        self.text = [&self.fields()[..4], &[reset]].concat().join("\t");
    }
}

/// A text in the making.
pub struct Damaged {
    pub lines: Vec<DamagedLine>,
    /// The multiplexer that refuses the start with 9.
    pub bad_start: Option<usize>,
    /// Whether the last line has no end.
    pub unended: bool,
    /// Bytes that stand behind the last line to make the text too long.
    pub padding: usize,
}

impl Damaged {
    pub fn new(base: &Base) -> Damaged {
        let line = |text| DamagedLine::new(text, None);
        let mut lines: Vec<DamagedLine> = base.draft.lines().into_iter().map(line).collect();
        lines[base.draft.nodes.len()].is_out = true;
        Damaged { lines, bad_start: None, unended: false, padding: 0 }
    }

    /// The index of the `out` line, or of the end if there is none.
    pub fn out_index(&self) -> usize {
        self.lines.iter().position(|line| line.is_out).unwrap_or(self.lines.len())
    }

    /// A random sound line with one of these words.
    pub fn draw_line(&self, random: &mut Random, words: &[&str]) -> Option<usize> {
        let fits = |index: &usize| {
            let line = &self.lines[*index];
            line.is_sound() && words.contains(&line.word())
        };
        let indices: Vec<usize> = (0..self.lines.len()).filter(fits).collect();
        (!indices.is_empty()).then(|| *random.pick(&indices))
    }

    pub fn insert(&mut self, index: usize, text: impl Into<String>, fault: Option<u32>) {
        let text = text.into();
        self.lines.insert(index, DamagedLine::new(text, fault));
    }

    pub fn text(&self) -> Vec<u8> {
        let lines: Vec<String> = self.lines.iter().map(|line| line.text.clone()).collect();
        let mut text = join(&lines);
        if self.unended {
            text.pop();
        }
        if self.padding > 0 {
            text.resize(MAX_NETWORK_BYTES + self.padding, b'\n');
        }
        text
    }

    /// "Order: text length; then line by line 1, 4, 2, 3, 6, 7, 8; 5 follows 2 on the `out` line;
    /// a missing `out` at the end; then 9."
    pub fn expected(&self) -> Option<Refusal> {
        if self.padding > 0 {
            return Some(Refusal::new(SIZE, 0));
        }
        let out = self.out_index();
        for (index, line) in self.lines.iter().enumerate() {
            if self.unended && index + 1 == self.lines.len() {
                return Some(Refusal::new(FORM, index + 1));
            }
            if let Some(number) = line.fault {
                return Some(Refusal::new(number, index + 1));
            }
            if index == out {
                if let Some(bad) = self.lines.iter().position(|line| line.bad_address) {
                    return Some(Refusal::new(ADDRESS, bad + 1));
                }
            }
        }
        if out == self.lines.len() {
            return Some(Refusal::new(ORDER, out + 1));
        }
        self.bad_start.map(|number| Refusal::new(START, number))
    }
}
