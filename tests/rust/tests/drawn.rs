//! The drawn networks of document 01, starred or not.

mod common;

use common::text;
use penthluk_reference::programs::{clock, mark, plan, read};

const A: [&str; 5] = ["seg 0 4 s", "mux 3 0 0 1", "seg 2 1 s", "out 3", "write 1 1010"];
const B: [&str; 7] =
    ["seg 0 2 s", "seg 0 2 s", "mux 4 0 1 2", "seg 3 1 s", "out 4", "read 1", "read 2"];
const C: [&str; 5] = ["seg 0 1 s", "seg 1 4 s", "mux 1 0 0 2", "out 3", "read 2"];
const D: [&str; 3] = ["seg 0 2 s", "mux 1 0 1 1 1", "out 2"];

/// The examples that hold these networks.
const STORED: [&[u8]; 4] = [
    include_bytes!("../../../examples/one-branch.net"),
    include_bytes!("../../../examples/equal-branches.net"),
    include_bytes!("../../../examples/no-plan.net"),
    include_bytes!("../../../examples/three-inputs.net"),
];

/// A `csu` line without bits.
const NO_BITS: &str = "csu ";

fn with(lines: &[&'static str], line: &'static str) -> Vec<u8> {
    text(&[lines, &[line]].concat())
}

#[test]
fn stored_as_examples() {
    assert_eq!(STORED.map(<[u8]>::to_vec), [text(&A), text(&B), text(&C), text(&D)]);
}

#[test]
fn a_plan_mark_and_clocks() {
    let network = text(&A);
    assert_eq!(read(&network), text(&["ok 3 5 1 1"]));
    let planned = plan(&network);
    assert_eq!(planned, text(&["csu 1", "csu 00101"]));
    assert_eq!(mark(&network, &planned), text(&["pass 2 16"]));
    let clocks = ["clk 100110 000100", "clk 1000000110 0000010100"];
    assert_eq!(clock(&planned), text(&clocks));
}

#[test]
fn a_refused() {
    let short = text(&["csu 1", "csu 0010"]);
    assert_eq!(mark(&text(&A), &short), text(&["fail 15 2"]));
    assert_eq!(mark(&with(&A, "hold 1 1010"), b""), text(&["fail 17 1"]));
    assert_eq!(read(&with(&A, "hold 3 X")), text(&["fail 9 2"]));
    let steering_target = with(&A[..4], "write 3 1");
    for printed in [read(&steering_target), plan(&steering_target), mark(&steering_target, b"")] {
        assert_eq!(printed, text(&["fail 7 5"]));
    }
}

#[test]
fn b_plan_and_mark() {
    let network = text(&B);
    let planned = plan(&network);
    assert_eq!(planned, text(&["csu 100", "csu 000"]));
    assert_eq!(mark(&network, &planned), text(&["pass 2 16", "got 1 1 1", "got 2 2 1"]));
}

#[test]
fn c_has_no_plan() {
    let network = text(&C);
    assert_eq!(plan(&network), text(&["fail 11 0"]));
    assert_eq!(mark(&network, &text(&[NO_BITS])), text(&["fail 17 1"]));
}

#[test]
fn d_marks() {
    let network = text(&D);
    assert_eq!(mark(&network, &text(&["csu 01"])), text(&["pass 1 7"]));
    assert_eq!(mark(&network, &text(&["csu 11"])), text(&["fail 16 1"]));
}

#[test]
fn empty_text() {
    assert_eq!(read(b""), text(&["fail 4 1"]));
    assert_eq!(plan(b""), text(&["fail 4 1"]));
    assert_eq!(mark(b"", b""), text(&["fail 4 1"]));
}

#[test]
fn out_alone() {
    let network = text(&["out 0"]);
    assert_eq!(read(&network), text(&["ok 0 0 0 0"]));
    assert_eq!(plan(&network), b"");
    assert_eq!(mark(&network, b""), text(&["pass 0 0"]));
    assert_eq!(clock(b""), b"");
}

/// "LEN 32 is read"; "LEN may be 64, and 65 is refused as 33 was".
#[test]
fn segment_lengths() {
    assert_eq!(read(&text(&["seg 0 32 s", "out 1"])), text(&["ok 1 32 0 32"]));
    assert_eq!(read(&text(&["seg 0 64 s", "out 1"])), text(&["ok 1 64 0 64"]));
    assert_eq!(read(&text(&["seg 0 65 s", "out 1"])), text(&["fail 2 1"]));
}

#[test]
fn plan_lines() {
    let network = text(&["out 0"]);
    assert_eq!(mark(&network, &text(&[NO_BITS; 16])), text(&["pass 16 80"]));
    assert_eq!(mark(&network, &text(&[NO_BITS; 17])), text(&["fail 14 17"]));
    assert_eq!(clock(&text(&[NO_BITS; 17])), text(&["fail 14 17"]));
    assert_eq!(clock(&text(&[NO_BITS])), text(&["clk 10110 00000"]));
}

/// "Mistakes members make", each with a network that shows it.
#[test]
fn mistakes() {
    // "Following the new address while still shifting": the first operation of A has one bit.
    assert_eq!(mark(&text(&A), &text(&["csu 10101"])), text(&["fail 15 1"]));
    // "Sending a segment's highest bit to the place nearest scan-out."
    assert_eq!(mark(&text(&A), &text(&["csu 1", "csu 01010"])), text(&["fail 17 1"]));
    // "Leaving the last configuration unchecked."
    assert_eq!(mark(&text(&D), &text(&["csu 01", "csu 11"])), text(&["fail 16 2"]));
    // "Marking by path length alone, which can't tell B's branches apart."
    assert_eq!(mark(&text(&B), &text(&["csu 000", "csu 000"])), text(&["fail 17 2"]));
}
