//! What several test files need.

#![allow(dead_code)]

use penthluk_reference::generate::random::Random;
use penthluk_reference::limits::{MAX_PLAN_BYTES, SEARCH_ENTRIES};
use penthluk_reference::network::Network;
use penthluk_reference::planner::make_plan;
use penthluk_reference::reader::read_network;
use penthluk_reference::refusal::Refusal;

/// A text from lines that show tabs as spaces.
pub fn text(lines: &[&str]) -> Vec<u8> {
    lines.iter().flat_map(|line| (line.replace(' ', "\t") + "\n").into_bytes()).collect()
}

/// The refusal with this number and place.
pub fn refused<T>(number: u32, place: usize) -> Result<T, Refusal> {
    Err(Refusal::new(number, place))
}

/// The planner's plan text with memory of the full sizes.
pub fn plan_text(network_text: &[u8]) -> Result<Vec<u8>, Refusal> {
    let mut search = vec![0; SEARCH_ENTRIES];
    let mut plan = vec![0; MAX_PLAN_BYTES];
    let bytes = make_plan(network_text, &mut search, &mut plan)?;
    plan.truncate(bytes);
    Ok(plan)
}

/// Draws network texts until one is accepted.
pub fn accepted(random: &mut Random, draw: impl Fn(&mut Random) -> Vec<u8>) -> (Vec<u8>, Network) {
    loop {
        let text = draw(random);
        if let Ok(network) = read_network(&text) {
            return (text, network);
        }
    }
}

/// Bytes that are neither `0` nor `1` nor part of a printed line.
pub fn pattern(length: usize) -> Vec<u8> {
    (0..length).map(|index| 128 + (index % 101) as u8).collect()
}

/// A buffer that keeps its pattern behind the bytes written.
pub fn overwritten(length: usize, written: &[u8]) -> Vec<u8> {
    let mut buffer = pattern(length);
    buffer[..written.len()].copy_from_slice(written);
    buffer
}

/// The lengths around what is needed.
pub fn lengths(needed: usize) -> Vec<usize> {
    let mut lengths = vec![0, needed.saturating_sub(1), needed, needed + 1, needed + 1000];
    lengths.dedup();
    lengths
}
