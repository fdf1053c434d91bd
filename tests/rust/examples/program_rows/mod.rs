//! The rows of the programs for a case, and which cases the prover can compute.

use penthluk_reference::generate::cases::Case;
use penthluk_reference::limits::{EARLIER_SEGMENT_BITS, MAX_PLAN_BYTES, SEARCH_ENTRIES};
use penthluk_reference::marker::mark;
use penthluk_reference::plan_text::plan_lines;
use penthluk_reference::planner::make_plan;
use penthluk_reference::programs;
use penthluk_reference::reader::{read_network, read_network_up_to};
use penthluk_reference::steering::steering_bits;
use penthluk_reference::text::{fields, lines};

use crate::antt_text::literal;

/// The rows of `read`, `mark` and `clock`.
pub fn text_rows(case: &Case) -> Vec<String> {
    let clocks = programs::clock(&case.plan);
    let refused = plan_lines(&case.plan).is_err();
    [network_rows(case), vec![row("clocking", b"", &case.plan, &clocks, refused)]].concat()
}

/// The rows of `read`, with RESET and without, and of `mark`.
pub fn network_rows(case: &Case) -> Vec<String> {
    let (network, plan) = (&case.network, &case.plan);
    let (read, marked) = (programs::read(network), programs::mark(network, plan));
    let old = without_reset(network);
    vec![
        row("reading", network, b"", &read, read_network(network).is_err()),
        row("reading-without", network, b"", &programs::read(&old), read_network(&old).is_err()),
        row("marking", network, plan, &marked, mark(network, plan).is_err()),
    ]
}

/// The rows of `read` and of `mark`, up to 64 bits and up to 32.
pub fn long_rows(case: &Case) -> Vec<String> {
    let (network, plan) = (&case.network, &case.plan);
    let earlier = read_network_up_to(EARLIER_SEGMENT_BITS, network);
    let refused = earlier.is_err();
    let read = programs::shown(earlier);
    let (marked, failed) = (programs::mark(network, plan), mark(network, plan).is_err());
    let marked_earlier = if refused { &read } else { &marked };
    vec![
        row("reading", network, b"", &programs::read(network), read_network(network).is_err()),
        row("reading-earlier", network, b"", &read, refused),
        row("marking", network, plan, &marked, failed),
        row("marking-earlier", network, plan, marked_earlier, refused || failed),
    ]
}

/// The rows of `plan`, up to 64 bits and up to 32, and the text in a buffer of as many bytes, and of one less.
pub fn long_plan_rows(case: &Case) -> Vec<String> {
    let network = &case.network;
    let earlier = read_network_up_to(EARLIER_SEGMENT_BITS, network);
    let (planned, failed) = (programs::plan(network), is_refused(network));
    let refused = earlier.is_err();
    let printed = if refused { programs::shown(earlier) } else { planned.clone() };
    let buffer = vec![b'x'; planned.len()];
    let written = if refused || failed { b"" } else { &planned[..] };
    vec![
        row("planning", network, b"", &planned, failed),
        row("planning-earlier", network, b"", &printed, refused || failed),
        row("calling-earlier", network, &buffer, written, false),
        row("calling-earlier", network, &buffer[..buffer.len().saturating_sub(1)], b"", false),
    ]
}

/// The text as a reader sees it that knows no RESET: a `seg` line of five fields has a wrong form.
fn without_reset(network: &[u8]) -> Vec<u8> {
    let mut text = Vec::new();
    for line in lines(network) {
        match fields(line.bytes).as_slice() {
            [b"seg", _, _, _, _] => text.extend(b"seg"),
            _ => text.extend(line.bytes),
        }
        text.extend(line.ended.then_some(b'\n'));
    }
    text
}

/// The row of `plan`.
pub fn plan_rows(case: &Case) -> Vec<String> {
    let planned = programs::plan(&case.network);
    vec![row("planning", &case.network, b"", &planned, is_refused(&case.network))]
}

pub fn row(program: &str, network: &[u8], plan: &[u8], output: &[u8], refused: bool) -> String {
    let [network, plan, output] =
        [network, plan, output].map(|text| literal(text).expect("printable"));
    format!("    row {program} {network} {plan} {output} {}", u8::from(refused))
}

/// Whether the case's texts are small and hold no byte that no text literal has.
pub fn is_small(case: &Case, [network, plan]: [usize; 2]) -> bool {
    let small = |text: &[u8], most: usize| text.len() <= most && literal(text).is_some();
    small(&case.network, network) && small(&case.plan, plan)
}

/// Whether the planner refuses a network text.
fn is_refused(network: &[u8]) -> bool {
    make_plan(network, &mut vec![0; SEARCH_ENTRIES], &mut vec![0; MAX_PLAN_BYTES]).is_err()
}

/// Whether the definition of the search can be computed for the network: steering bits times operations
/// are at most so many.
pub fn is_searched(text: &[u8], most: usize) -> bool {
    let Ok(network) = read_network(text) else {
        return true;
    };
    let output = programs::plan(text);
    let steering = steering_bits(&network.nodes).len();
    if output.starts_with(b"fail\t11") {
        return steering == 0;
    }
    let operations = output.iter().filter(|&&byte| byte == b'\n').count();
    output.starts_with(b"fail") || steering * operations <= most
}
