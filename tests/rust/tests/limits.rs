//! Each limit, exactly reached and passed by one.

mod common;

use common::{plan_text, refused, text};
use penthluk_reference::clocks::write_clocks;
use penthluk_reference::generate::draft::join;
use penthluk_reference::generate::edges::{held_chain, long_network, plan_line};
use penthluk_reference::generate::large::{chain, full, steered};
use penthluk_reference::generate::maze::gray;
use penthluk_reference::generate::random::Random;
use penthluk_reference::generate::reset_cases::{
    held_reset_chain, long_reset, long_reset_chain, reset_chain,
};
use penthluk_reference::limits::{MAX_NETWORK_BYTES, MAX_NODES, MAX_PLAN_BYTES};
use penthluk_reference::marker::mark;
use penthluk_reference::plan_text::{parse_plan, write_plan};
use penthluk_reference::play::check_pass;
use penthluk_reference::programs;
use penthluk_reference::reader::{read_network, read_network_up_to};
use penthluk_reference::refusal::Refusal;

#[test]
fn nodes() {
    assert!(read_network(&chain(128, 128).text()).is_ok());
    assert_eq!(read_network(&chain(129, 129).text()), refused(3, 129));
    let mut multiplexer = chain(128, 128);
    multiplexer.multiplexer(1, 0, vec![0, 1]);
    assert_eq!(read_network(&multiplexer.text()), refused(3, 129));
    multiplexer.nodes.truncate(128);
    assert!(read_network(&multiplexer.text()).is_ok());
    // Node 129 with bad bounds is 2.
    let mut lines = chain(129, 129).lines();
    lines[128] = "seg\t129\t1\ts".to_string();
    assert_eq!(read_network(&join(&lines)), refused(2, 129));
}

#[test]
fn segment_bits() {
    assert_eq!(programs::read(&chain(125, 4_000).text()), text(&["ok 125 4000 0 4000"]));
    assert_eq!(programs::read(&chain(128, 4_000).text()), text(&["ok 128 4000 0 4000"]));
    assert_eq!(read_network(&chain(128, 4_001).text()), refused(3, 128));
    let mut one_more = chain(125, 4_000);
    one_more.segment(0, 1, false);
    assert_eq!(read_network(&one_more.text()), refused(3, 126));
    assert_eq!(programs::read(&full().text()), text(&["ok 128 4000 6 4000"]));
}

/// 62 segments of 64 bits have 3,968.
#[test]
fn segment_bits_of_long_registers() {
    let chain_and = |len: usize| {
        let mut draft = chain(62, 62 * 64);
        draft.out = draft.segment(62, len, true);
        draft.text()
    };
    assert_eq!(programs::read(&chain_and(32)), text(&["ok 63 4000 0 4000"]));
    for len in [33, 63, 64] {
        assert_eq!(read_network(&chain_and(len)), refused(3, 63), "{len}");
    }
    assert_eq!(read_network(&chain_and(65)), refused(2, 63));
}

#[test]
fn segment_length() {
    for (len, accepted) in [
        (0, false),
        (1, true),
        (31, true),
        (32, true),
        (33, true),
        (63, true),
        (64, true),
        (65, false),
        (66, false),
        (96, false),
        (128, false),
        (256, false),
        (257, false),
        (9999, false),
    ] {
        for kind in ["s", "p"] {
            let line = format!("seg 0 {len} {kind}");
            let result = read_network(&text(&[&line, "out 1"]));
            assert_eq!(result.is_ok(), accepted, "{line}");
            assert!(accepted || result == refused(2, 1), "{line}");
            // at its own line
            let second = read_network(&text(&["seg 0 64 s", &line, "out 2"]));
            assert!(second.is_ok() == accepted && (accepted || second == refused(2, 2)), "{line}");
        }
    }
}

/// The greatest LEN is the one given, whatever it is.
#[test]
fn segment_length_up_to() {
    for most in [1, 31, 32, 33, 63, 64] {
        for len in 0..=70 {
            let network = text(&["seg 0 1 s", &format!("seg 1 {len} p"), "out 2"]);
            let result = read_network_up_to(most, &network);
            match len {
                _ if (1..=most).contains(&len) => assert_eq!(result, read_network(&network)),
                _ => assert_eq!(result, refused(2, 2), "{len}, {most}"),
            }
        }
    }
}

/// A RESET has LEN characters, whatever LEN is.
#[test]
fn reset_length() {
    for len in 1..=64 {
        for length in [1, len - 1, len, len + 1, 32, 33, 64, 65, 128, 9_999] {
            let line = format!("seg 0 {len} p {}", "X".repeat(length));
            let result = read_network(&text(&[&line, "out 1"]));
            match length {
                0 => assert_eq!(result, refused(1, 1)),
                _ if length == len => assert!(result.is_ok(), "{line}"),
                _ => assert_eq!(result, refused(18, 1), "{line}"),
            }
        }
    }
}

/// Node 129 and a segment that goes over 4,000 bits are 3 with a good RESET and 18 with another.
#[test]
fn reset_at_the_limits() {
    let random = &mut Random::new(703);
    assert!(read_network(&reset_chain(random, 128, 4_000).text()).is_ok());
    assert_eq!(read_network(&reset_chain(random, 129, 129).text()), refused(3, 129));
    assert_eq!(read_network(&reset_chain(random, 128, 4_001).text()), refused(3, 128));
    for (segments, bits) in [(128, 128), (125, 4_000)] {
        for (reset, number) in [("X", 3), ("10", 18), ("", 1)] {
            let mut lines = reset_chain(random, segments, bits).lines();
            lines.insert(segments, format!("seg\t0\t1\tp\t{reset}"));
            assert_eq!(read_network(&join(&lines)), refused(number, segments + 1));
        }
    }
}

#[test]
fn numbers_of_nodes() {
    let check = |lines: &[&str], result: Option<(u32, usize)>| {
        let expected = result.map(|(n, p)| Refusal::new(n, p));
        assert_eq!(read_network(&text(lines)).err(), expected, "{lines:?}");
    };
    check(&["seg 0 1 s", "seg 1 1 s", "out 2"], None);
    check(&["seg 0 1 s", "seg 2 1 s", "out 2"], Some((2, 2)));
    check(&["seg 0 1 s", "mux 1 0 0 1", "out 2"], None);
    check(&["seg 0 1 s", "mux 1 0 2 1", "out 2"], Some((2, 2)));
    check(&["seg 0 2 s", "mux 1 0 0 1 1 2", "out 2"], Some((2, 2)));
    check(&["seg 0 1 s", "out 1"], None);
    check(&["seg 0 1 s", "out 2"], Some((2, 2)));
    check(&["seg 0 1 s", "out 9999"], Some((2, 2)));
    check(&["seg 0 1 s", "out 10000"], Some((1, 2)));
}

#[test]
fn multiplexer_inputs_and_address() {
    let network = |multiplexer: &str| read_network(&text(&["seg 0 2 s", multiplexer, "out 2"]));
    assert_eq!(network("mux 1 0 0"), refused(1, 2));
    assert!(network("mux 1 1 0 1").is_ok());
    assert_eq!(network("mux 1 2 0 1"), refused(5, 2));
    for inputs in ["0 1 1", "0 1 1 0"] {
        assert!(network(&format!("mux 1 0 {inputs}")).is_ok());
        assert_eq!(network(&format!("mux 1 1 {inputs}")), refused(5, 2));
    }
    assert_eq!(network("mux 1 0 0 1 1 1 1"), refused(1, 2));
}

/// The highest address of a segment: its last bit for two inputs, its last two bits for more.
#[test]
fn highest_address() {
    for len in [31, 32, 33, 63, 64] {
        let network = |bit: usize, inputs: &str| {
            let (segment, multiplexer) =
                (format!("seg 0 {len} s"), format!("mux 1 {bit} {inputs}"));
            read_network(&text(&[&segment, &multiplexer, "out 2"]))
        };
        for (inputs, width) in [("0 1", 1), ("0 1 1", 2), ("0 1 1 0", 2)] {
            for bit in 0..=len - width {
                assert!(network(bit, inputs).is_ok(), "{len}, {bit}, {inputs}");
            }
            for bit in [len + 1 - width, len, len + 1, len + 64, 127, 128, 9_999] {
                assert_eq!(network(bit, inputs), refused(5, 2), "{len}, {bit}, {inputs}");
            }
        }
    }
}

#[test]
fn targets() {
    let nodes = ["seg 0 1 s", "seg 1 1 s", "seg 2 1 s", "out 3"];
    let targets = ["read 1", "read 2", "read 3", "write 1 0", "write 2 0"];
    let network = |count: usize| read_network(&text(&[&nodes[..], &targets[..count]].concat()));
    assert_eq!(network(4).map(|network| network.targets.len()), Ok(4));
    assert_eq!(network(5), refused(8, 9));
}

/// A text that is filled up by one long BITS field is 6 as long as its length is allowed.
#[test]
fn network_bytes() {
    assert_eq!(long_network(MAX_NETWORK_BYTES).len(), MAX_NETWORK_BYTES);
    assert_eq!(read_network(&long_network(MAX_NETWORK_BYTES)), refused(6, 3));
    assert_eq!(read_network(&long_network(MAX_NETWORK_BYTES + 1)), refused(3, 0));
    assert_eq!(read_network(&vec![b'\n'; MAX_NETWORK_BYTES]), refused(1, 1));
    assert_eq!(read_network(&vec![b'\n'; MAX_NETWORK_BYTES + 1]), refused(3, 0));
    let held = held_chain(&mut Random::new(702)).text();
    assert!(held.len() > 6_500 && read_network(&held).is_ok());
}

/// The same with a RESET, and with one for each segment of the longest text that is accepted.
#[test]
fn network_bytes_with_resets() {
    let random = &mut Random::new(704);
    for (length, one_line, chain) in [
        (MAX_NETWORK_BYTES - 1, (18, 1), (6, 262)),
        (MAX_NETWORK_BYTES, (18, 1), (6, 262)),
        (MAX_NETWORK_BYTES + 1, (3, 0), (3, 0)),
    ] {
        let texts = [(long_reset(length), one_line), (long_reset_chain(random, length), chain)];
        for (text, (number, place)) in texts {
            assert_eq!(text.len(), length);
            assert_eq!(read_network(&text), refused(number, place));
        }
    }
    let held = held_reset_chain(random).text();
    assert!(held.len() > 10_500 && read_network(&held).is_ok(), "{}", held.len());
}

#[test]
fn steering_bits() {
    for bits in 0..=6 {
        assert!(plan_text(&steered(bits).text()).is_ok() == (bits > 0));
    }
    assert_eq!(plan_text(&steered(7).text()), refused(10, 7));
    assert_eq!(plan_text(&steered(32).text()), refused(10, 32));
    assert_eq!(plan_text(&steered(64).text()), refused(10, 64));
}

#[test]
fn operations() {
    let sixteen = plan_text(&gray(16, None, &[]).text()).expect("16 operations are enough");
    assert_eq!(parse_plan(&sixteen).map(|plan| plan.len()), Ok(16));
    assert_eq!(plan_text(&gray(17, None, &[]).text()), refused(11, 0));
}

/// The operations that keep the full network as it is, with the bits of its write targets.
fn full_plan(lines: usize) -> Vec<u8> {
    let network = full();
    let planned = plan_text(&network.text()).expect("there is a plan");
    let operations = parse_plan(&planned).expect("it is of good form");
    assert_eq!(operations.len(), 1);
    write_plan(&vec![operations[0].clone(); lines])
}

#[test]
fn plan_bytes() {
    let network = full().text();
    let plan = full_plan(16);
    assert_eq!(plan.len(), MAX_PLAN_BYTES);
    let lines = ["pass 16 64080", "got 1 1 3936", "got 4 1 0"];
    assert_eq!(programs::mark(&network, &plan), text(&lines));
    let pass = mark(&network, &plan).expect("it has passed");
    let random = &mut Random::new(701);
    let read = read_network(&network).expect("it is accepted");
    assert_eq!(check_pass(&read, &plan, &pass, &mut || random.bit()), Ok(()));
    assert_eq!(mark(&network, &full_plan(17)), refused(14, 0));
    let one_more = [&plan[..plan.len() - 1], b"0\n"].concat();
    assert_eq!(mark(&network, &one_more), refused(14, 0));
}

/// One line may fill the whole text: 15 for the marker, good for the clock writer.
#[test]
fn one_long_line() {
    let plan = plan_line(MAX_PLAN_BYTES - 5);
    let (mut tms, mut tdi) = (vec![0; MAX_PLAN_BYTES], vec![0; MAX_PLAN_BYTES]);
    assert_eq!(write_clocks(&plan, &mut tms, &mut tdi), Ok(MAX_PLAN_BYTES));
    assert_eq!(mark(&text(&["out 0"]), &plan), refused(15, 1));
    let one_more = plan_line(MAX_PLAN_BYTES - 4);
    assert_eq!(write_clocks(&one_more, &mut tms, &mut tdi), refused(14, 0));
}

/// The planner writes long plans too: 16 operations on paths of over 3,400 bits, 128 nodes.
#[test]
fn long_plans() {
    let draft = gray(16, Some(&"01".repeat(16)), &[32; 108]);
    assert_eq!(draft.nodes.len(), MAX_NODES);
    let network = draft.text();
    let plan = plan_text(&network).expect("there is a plan");
    assert_eq!(plan.len(), 15 * (108 * 32 + 1 + 5) + 109 * 32 + 5);
    assert_eq!(mark(&network, &plan).map(|pass| pass.clocks), Ok(plan.len()));
    // of 3,900 bits and more with long registers
    let network = gray(16, Some(&"001".repeat(21)), &[64; 61]).text();
    let plan = plan_text(&network).expect("there is a plan");
    assert_eq!(plan.len(), 15 * (61 * 64 + 1 + 5) + 61 * 64 + 63 + 5);
    assert_eq!(mark(&network, &plan).map(|pass| pass.clocks), Ok(plan.len()));
}
