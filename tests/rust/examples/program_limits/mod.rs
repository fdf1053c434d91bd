//! Texts at the limits of length and count, and beyond them.

use super::Pair;
use penthluk_reference::generate::draft::Entry;
use penthluk_reference::generate::edges::{held_chain, long_network, plan_line};
use penthluk_reference::generate::large::{chain, full, steered};
use penthluk_reference::generate::long_registers::{add_bit, longest_choices, longest_row};
use penthluk_reference::generate::maze::gray;
use penthluk_reference::generate::random::Random;
use penthluk_reference::generate::reset_cases::{
    held_reset_chain, long_reset, long_reset_chain, reset_chain,
};
use penthluk_reference::generate::rounds::many_rounds;
use penthluk_reference::limits::{
    MAX_NETWORK_BITS, MAX_NETWORK_BYTES, MAX_NODES, MAX_OPERATIONS, MAX_PLAN_BYTES,
    MAX_SEGMENT_BITS,
};
use penthluk_reference::plan_text::write_plan;

/// Operations of random bits.
fn operations(random: &mut Random, count: usize, bits: usize) -> Vec<u8> {
    let line = |_| (0..bits).map(|_| random.bit()).collect();
    write_plan(&(0..count).map(line).collect::<Vec<_>>())
}

/// 128 segments and 4,000 bits in a row, so many segments to read and four operations for each.
/// Four give the longest plan text.
pub fn all_on_path(random: &mut Random, reads: usize) -> Pair {
    let mut draft = chain(MAX_NODES, MAX_NETWORK_BITS);
    let segments = [128, 1, 100, 50];
    draft.entries = segments[..reads].iter().map(|&segment| Entry::Read { segment }).collect();
    let plan = operations(random, 4 * reads, MAX_NETWORK_BITS);
    Pair::new(format!("all-on-path-{reads}"), draft.text(), plan)
}

/// Network texts at the limits of length and count, and beyond them.
pub fn network_limits(random: &mut Random) -> Vec<Pair> {
    let one = || plan_line(1);
    // A last line that holds segment 1 again.
    let held = held_chain(random).text();
    let filled = |length: usize| {
        let mut text = [&held[..], b"hold\t1\t"].concat();
        text.resize(length - 1, b'0');
        [text, b"\n".to_vec()].concat()
    };
    vec![
        Pair::new("empty", Vec::new(), Vec::new()),
        Pair::new("no-node", b"out\t0\n".to_vec(), Vec::new()),
        Pair::new("held", held.clone(), operations(random, 3, MAX_NETWORK_BITS)),
        Pair::new("held-longest", filled(MAX_NETWORK_BYTES), one()),
        Pair::new("held-too-long", filled(MAX_NETWORK_BYTES + 1), one()),
        Pair::new("bits-longest", long_network(MAX_NETWORK_BYTES), one()),
        Pair::new("bits-too-long", long_network(MAX_NETWORK_BYTES + 1), one()),
        Pair::new("node-129", chain(MAX_NODES + 1, MAX_NODES + 1).text(), one()),
        Pair::new("bit-4001", chain(MAX_NODES, MAX_NETWORK_BITS + 1).text(), one()),
        Pair::planned("steering-6", steered(6)),
        Pair::planned("steering-7", steered(7)),
        Pair::planned("full", full()),
    ]
}

/// Network texts with RESET fields at the limits of length and count, and beyond them.
pub fn reset_limits(random: &mut Random) -> Vec<Pair> {
    let one = || plan_line(1);
    let held = held_reset_chain(random);
    vec![
        Pair::planned("reset-held", held),
        Pair::new("reset-held-longest", long_reset_chain(random, MAX_NETWORK_BYTES), one()),
        Pair::new("reset-held-too-long", long_reset_chain(random, MAX_NETWORK_BYTES + 1), one()),
        Pair::new("reset-longest", long_reset(MAX_NETWORK_BYTES), one()),
        Pair::new("reset-too-long", long_reset(MAX_NETWORK_BYTES + 1), one()),
        Pair::new(
            "reset-node-129",
            reset_chain(random, MAX_NODES + 1, MAX_NODES + 1).text(),
            one(),
        ),
        Pair::new(
            "reset-bit-4001",
            reset_chain(random, MAX_NODES, MAX_NETWORK_BITS + 1).text(),
            one(),
        ),
    ]
}

/// Plan texts at the limits of length and count, and beyond them.
pub fn plan_limits(random: &mut Random) -> Vec<Pair> {
    let long = chain(MAX_NODES, MAX_NETWORK_BITS).text();
    let short = chain(1, 1).text();
    let longest = operations(random, MAX_OPERATIONS, MAX_NETWORK_BITS);
    let too_long = [&longest[..longest.len() - 1], b"1\n"].concat();
    vec![
        Pair::new("plan-longest", long.clone(), longest),
        Pair::new("plan-too-long", long, too_long),
        Pair::new("line-longest", short.clone(), plan_line(MAX_PLAN_BYTES - 5)),
        Pair::new("line-too-long", short.clone(), plan_line(MAX_PLAN_BYTES - 4)),
        Pair::new("line-16", short.clone(), operations(random, MAX_OPERATIONS, 1)),
        Pair::new("line-17", short, operations(random, MAX_OPERATIONS + 1, 1)),
        Pair::planned("operations-16", gray(16, Some(&"01".repeat(16)), &[32; 108])),
        Pair::planned("operations-17", gray(17, None, &[])),
        Pair::planned("many-rounds", many_rounds()),
    ]
}

/// 62 registers of 64 bits and one of 32, in a row, with start bits and behind multiplexers, one bit more,
/// and plans of 16 operations over them.
pub fn long_limits(random: &mut Random) -> Vec<Pair> {
    let mut row = longest_row(random);
    row.entries = [63, 1, 30, 2].map(|segment| Entry::Read { segment }).to_vec();
    let longest = operations(random, MAX_OPERATIONS, MAX_NETWORK_BITS);
    let mut held = longest_row(random);
    held.draw_targets(random, 20);
    held.draw_holds(random, 100);
    let mut reset_held = held.clone();
    reset_held.draw_resets(random, 100);
    let mut choices = longest_choices(random);
    choices.draw_targets(random, 20);
    let mut more = held.clone();
    add_bit(random, &mut more);
    let bits = random.letters(&['0', '1'], MAX_SEGMENT_BITS);
    let one = |len: usize| chain(1, len).text();
    vec![
        Pair::new("long-row", row.text(), longest),
        Pair::planned("long-held", held),
        Pair::planned("long-reset-held", reset_held),
        Pair::planned("long-choices", choices),
        Pair::planned("long-operations-16", gray(16, Some(&bits), &[MAX_SEGMENT_BITS; 61])),
        Pair::new("long-bit-4001", more.text(), plan_line(1)),
        Pair::new("length-64", one(MAX_SEGMENT_BITS), operations(random, 3, MAX_SEGMENT_BITS)),
        Pair::new("length-65", one(MAX_SEGMENT_BITS + 1), plan_line(MAX_SEGMENT_BITS + 1)),
    ]
}
