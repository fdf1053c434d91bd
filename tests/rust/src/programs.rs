//! What the programs print. Lines are tab-parted and end with byte 10.

use std::io::{self, Read};

use crate::carry;
use crate::clocks::write_clocks;
use crate::limits::{MAX_PLAN_BYTES, SEARCH_ENTRIES};
use crate::marker::{self, Pass};
use crate::network::Network;
use crate::path::{path_length, walk};
use crate::plan_text::plan_lines;
use crate::planner::make_plan;
use crate::reader::read_network;
use crate::recover::{self, Recovery};
use crate::refusal::Refusal;
use crate::steering::steering_bits;

/// The read program. Document 01 names no line for an accepted network; it prints `ok` and the
/// counts of nodes, segment bits, distinct steering bits and the length of the start's path.
pub fn read(network_text: &[u8]) -> Vec<u8> {
    shown(read_network(network_text))
}

/// The line of a reading.
pub fn shown(result: Result<Network, Refusal>) -> Vec<u8> {
    printed(result.map(|network| numbers("ok", &counts(&network))))
}

/// "The plan program prints the plan".
pub fn plan(network_text: &[u8]) -> Vec<u8> {
    let mut search = vec![0; SEARCH_ENTRIES];
    let mut plan = vec![0; MAX_PLAN_BYTES];
    printed(make_plan(network_text, &mut search, &mut plan).map(|bytes| plan[..bytes].to_vec()))
}

/// "The mark program prints `pass`, operations, clocks; then for each read target in order `got`,
/// target, first operation with it on the path, place of its bit 0."
pub fn mark(network_text: &[u8], plan_text: &[u8]) -> Vec<u8> {
    marked(marker::mark(network_text, plan_text))
}

/// The lines of a mark.
pub fn marked(result: Result<Pass, Refusal>) -> Vec<u8> {
    printed(result.map(|pass| pass_lines(&pass)))
}

/// "the clock program prints `clk TMS TDI` for each operation"
pub fn clock(plan_text: &[u8]) -> Vec<u8> {
    printed(clock_lines(plan_text))
}

/// "A program reads `clk` lines": it prints the plan that was played.
pub fn recover(clock_text: &[u8]) -> Vec<u8> {
    printed(recover::recover(clock_text))
}

/// The same for a text that is read piece by piece, so that it may be of any length. At a refusal
/// reading ends.
pub fn recover_from(input: &mut impl Read) -> io::Result<Vec<u8>> {
    let mut piece = vec![0; 1 << 16];
    let mut recovery = Recovery::default();
    loop {
        let count = input.read(&mut piece)?;
        let fed = recovery.feed(&piece[..count]);
        if count == 0 || fed.is_err() {
            return Ok(printed(recovery.end()));
        }
    }
}

/// "After a pass, a program prints the last configuration as one `hold` line for each segment in number
/// order."
pub fn carry(network_text: &[u8], plan_text: &[u8]) -> Vec<u8> {
    printed(carry::carried(network_text, plan_text))
}

/// "A refusal prints `fail`, number, place."
fn printed(result: Result<Vec<u8>, Refusal>) -> Vec<u8> {
    result.unwrap_or_else(|refusal| numbers("fail", &[refusal.number as usize, refusal.place]))
}

/// A line of a word and numbers.
fn numbers(word: &str, values: &[usize]) -> Vec<u8> {
    let values: String = values.iter().map(|value| format!("\t{value}")).collect();
    format!("{word}{values}\n").into_bytes()
}

fn counts(network: &Network) -> [usize; 4] {
    let path = walk(network, &network.start).unwrap_or_default();
    let steering = steering_bits(&network.nodes).len();
    [network.nodes.len(), network.bits(), steering, path_length(network, &path)]
}

fn pass_lines(pass: &Pass) -> Vec<u8> {
    let mut lines = numbers("pass", &[pass.operations, pass.clocks]);
    for got in &pass.gots {
        lines.extend(numbers("got", &[got.target, got.operation, got.place]));
    }
    lines
}

fn clock_lines(plan_text: &[u8]) -> Result<Vec<u8>, Refusal> {
    let mut tms = vec![0; MAX_PLAN_BYTES];
    let mut tdi = vec![0; MAX_PLAN_BYTES];
    write_clocks(plan_text, &mut tms, &mut tdi)?;
    let mut lines = Vec::new();
    let mut start = 0;
    for bits in plan_lines(plan_text)? {
        let end = start + bits.len() + 5;
        lines.extend([b"clk\t", &tms[start..end], b"\t", &tdi[start..end], b"\n"].concat());
        start = end;
    }
    Ok(lines)
}
