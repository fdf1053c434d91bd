//! "A `seg` line gets a last field RESET, LEN characters of `0`, `1` or `X`, highest bit first, and a
//! segment without a `hold` line starts from it. [..] the old form is still read as before."

mod common;

use common::{refused, text};
use penthluk_reference::generate::draft::{Draft, Entry};
use penthluk_reference::generate::random::Random;
use penthluk_reference::generate::reset_cases::draw_reset_network;
use penthluk_reference::network::Node;
use penthluk_reference::programs::{mark, plan, read};
use penthluk_reference::reader::read_network;
use penthluk_reference::text::written;

/// The start bits of each segment as they are written.
fn starts(lines: &[&str]) -> Vec<String> {
    let network = read_network(&text(lines)).expect("it is accepted");
    let segments = (1..=network.nodes.len()).filter(|&node| network.len(node) > 0);
    segments.map(|segment| written(&network.start[segment - 1])).collect()
}

#[test]
fn form() {
    let line = |line: &str| read_network(&text(&[line, "out 1"]));
    for good in ["", " 01", " 10", " XX", " 0X", " X1"] {
        for kind in ["s", "p"] {
            assert!(line(&format!("seg 0 2 {kind}{good}")).is_ok(), "{kind}{good}");
        }
    }
    // Another character, whatever the length is; an empty field; six fields; RESET for KIND.
    for wrong in ["0x", "x", "02", "2", "X12", "00-", "0\r", "\u{0}0", "01\u{0}", "+1", "s"] {
        assert_eq!(line(&format!("seg 0 2 s {wrong}")), refused(1, 1), "{wrong}");
    }
    for wrong in ["s ", "s  ", "s 01 ", "s  01", "s 01 0", "s 01 01", "01", "01 s", " 01", "s01"] {
        assert_eq!(line(&format!("seg 0 2 {wrong}")), refused(1, 1), "{wrong}");
    }
    for wrong in ["0", "X", "011", "XXX", &"0".repeat(32), &"0".repeat(64), &"0".repeat(66)] {
        assert_eq!(line(&format!("seg 0 2 s {wrong}")), refused(18, 1), "{wrong}");
    }
    // An unended last line
    assert_eq!(read_network(b"seg\t0\t2\ts\t0"), refused(1, 1));
}

/// 18 in all three programs that read a network, at the line.
#[test]
fn refused_by_all() {
    let network = text(&["seg 0 1 s 0", "seg 1 4 s 101", "out 2"]);
    for printed in [read(&network), plan(&network), mark(&network, b"")] {
        assert_eq!(printed, text(&["fail 18 2"]));
    }
    // before a plan of bad form
    assert_eq!(mark(&network, b"?"), text(&["fail 18 2"]));
}

/// Segments 1 and 3 steer; RESET stands line by line.
#[test]
fn start_bits() {
    let nodes = ["seg 0 2 s", "mux 1 0 0 1", "seg 2 3 s 110", "mux 3 0 3 3", "seg 4 4 s"];
    let more = ["seg 5 3 p", "seg 6 3 s 0X1", "seg 7 3 p X10", "out 8"];
    let lines = [&nodes[..], &more].concat();
    assert_eq!(starts(&lines), ["00", "110", "XXXX", "XXX", "0X1", "X10"]);
    let holds = ["hold 1 10", "hold 5 0X01", "hold 7 X0X", "hold 8 000"];
    let held = [&lines[..], &holds].concat();
    assert_eq!(starts(&held), ["10", "110", "0X01", "XXX", "X0X", "000"]);
}

/// "highest bit first": the lowest bit of RESET is the address.
#[test]
fn highest_bit_first() {
    let network =
        |reset: &str| text(&["seg 0 5 s", &format!("seg 0 2 s {reset}"), "mux 2 0 2 1", "out 3"]);
    assert_eq!(read(&network("10")), text(&["ok 3 7 1 2"]));
    assert_eq!(read(&network("01")), text(&["ok 3 7 1 5"]));
}

/// A RESET that opens the branch of A of document 01 saves the first operation.
#[test]
fn open_at_the_start() {
    let network = |steering: &str, rest: &[&str]| {
        let lines = ["seg 0 4 s", "mux 3 0 0 1", steering, "out 3", "write 1 1010"];
        text(&[&lines[..], rest].concat())
    };
    for closed in ["seg 2 1 s", "seg 2 1 s 0"] {
        assert_eq!(plan(&network(closed, &[])), text(&["csu 1", "csu 00101"]));
    }
    assert_eq!(plan(&network("seg 2 1 s 1", &[])), text(&["csu 00101"]));
    assert_eq!(mark(&network("seg 2 1 s 1", &[]), &text(&["csu 00101"])), text(&["pass 1 10"]));
    assert_eq!(read(&network("seg 2 1 s X", &[])), text(&["fail 9 2"]));
    assert_eq!(plan(&network("seg 2 1 s 1", &["hold 3 0"])), text(&["csu 1", "csu 00101"]));
    assert_eq!(plan(&network("seg 2 1 s 0", &["hold 3 1"])), text(&["csu 00101"]));
    assert_eq!(plan(&network("seg 2 1 s X", &["hold 3 1"])), text(&["csu 00101"]));
}

/// A write target that starts with its bits still has to be on a path.
#[test]
fn target_with_its_bits() {
    let network = text(&["seg 0 4 s 1010", "out 1", "write 1 1010"]);
    assert_eq!(mark(&network, b""), text(&["fail 17 1"]));
    assert_eq!(plan(&network), text(&["csu 0101"]));
}

/// An X, or an address too high, that the start's walk meets is 9; elsewhere it is none.
#[test]
fn start_not_valid() {
    let three = |reset: &str, rest: &[&str]| {
        let segment = format!("seg 0 3 s {reset}");
        let lines = [&segment, "mux 1 0 1 0 0", "seg 0 1 s", "mux 3 0 2 3", "out 4"];
        read(&text(&[&lines[..], rest].concat()))
    };
    for reset in ["00X", "0X0", "0X1", "01X", "011", "111", "XXX"] {
        assert_eq!(three(reset, &[]), text(&["fail 9 2"]), "{reset}");
        // off the path
        assert_eq!(three(reset, &["hold 3 1"]), text(&["ok 4 4 3 1"]), "{reset}");
        assert_eq!(three(reset, &["hold 1 X00"]), text(&["ok 4 4 3 3"]), "{reset}");
    }
    for (reset, length) in [("X00", 3), ("100", 3), ("001", 0), ("X10", 0)] {
        let expected = format!("ok 4 4 3 {length}");
        assert_eq!(three(reset, &[]), text(&[&expected]), "{reset}");
    }
}

/// "a segment without a `hold` line starts from it": a `hold` replaces the whole RESET. Here bit 0 of
/// segment 1 decides whether the walk ends after the first operation.
#[test]
fn hold_replaces_reset() {
    let marked = |reset: &str, hold: &str| {
        let segment = format!("seg 0 2 s{reset}");
        let lines = [&segment, "mux 1 0 0 1", "seg 0 1 s", "mux 3 0 3 2", "out 4"];
        mark(&text(&[&lines[..], &[hold][..usize::from(!hold.is_empty())]].concat()), b"csu\t1\n")
    };
    let (pass, fail) = (text(&["pass 1 6"]), text(&["fail 16 1"]));
    for (reset, hold, known) in [
        ("", "", true),
        (" 10", "", true),
        (" X1", "", true),
        (" 1X", "", false),
        (" XX", "", false),
        ("", "hold 1 X0", true),
        ("", "hold 1 0X", false),
        (" 1X", "hold 1 X0", true),
        (" XX", "hold 1 11", true),
        (" 10", "hold 1 1X", false),
        (" 11", "hold 1 XX", false),
        (" 0X", "hold 1 XX", false),
    ] {
        assert_eq!(marked(reset, hold), if known { &pass } else { &fail }[..], "{reset}, {hold}");
    }
}

/// The draft in the old form: a `hold` line for each RESET over which none stands.
fn old_form(mut draft: Draft) -> Draft {
    for segment in draft.segments() {
        let Node::Segment { reset, .. } = &mut draft.nodes[segment - 1] else { continue };
        let Some(bits) = reset.take() else { continue };
        let is_own =
            |entry: &Entry| matches!(entry, Entry::Hold { segment: held, .. } if *held == segment);
        if !draft.entries.iter().any(is_own) {
            draft.entries.push(Entry::Hold { segment, bits: written(&bits) });
        }
    }
    draft
}

/// The same start with `hold` lines, and with other RESET fields: the same answers.
#[test]
fn same_start_said_otherwise() {
    let random = &mut Random::new(801);
    let (mut accepted, mut refused) = (0, 0);
    for _ in 0..4_000 {
        let draft = draw_reset_network(random);
        let old = old_form(draft.clone());
        let drafts = match (read_network(&draft.text()), read_network(&old.text())) {
            (Ok(network), Ok(held)) => {
                assert_eq!((&network.start, &network.targets), (&held.start, &held.targets));
                accepted += 1;
                let mut other = draft.clone();
                other.respell(random, &network.start);
                assert_eq!(read_network(&other.text()).map(|other| other.start), Ok(held.start));
                vec![draft, old, other]
            }
            (network, held) => {
                assert_eq!(network.err(), held.err());
                refused += 1;
                vec![draft, old]
            }
        };
        let plans: Vec<Vec<u8>> = drafts.iter().map(|draft| plan(&draft.text())).collect();
        let marks: Vec<Vec<u8>> =
            drafts.iter().map(|draft| mark(&draft.text(), &plans[0])).collect();
        assert!(plans.windows(2).all(|pair| pair[0] == pair[1]), "{drafts:?}");
        assert!(marks.windows(2).all(|pair| pair[0] == pair[1]), "{drafts:?}");
    }
    assert!(accepted > 2_000 && refused > 500, "{accepted}, {refused}");
}
