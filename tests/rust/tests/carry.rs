//! "After a pass, a program prints the last configuration as one `hold` line for each segment in number
//! order."

mod common;

use common::{lengths, overwritten, pattern, refused, text};
use penthluk_reference::carry;
use penthluk_reference::generate::carry_cases::carry_case;
use penthluk_reference::generate::edges::{long_network, plan_line};
use penthluk_reference::generate::exercises::Exercise;
use penthluk_reference::generate::large::chain;
use penthluk_reference::limits::{MAX_HOLD_BYTES, MAX_NETWORK_BYTES, MAX_PLAN_BYTES};
use penthluk_reference::programs::{carry as printed, mark};
use penthluk_reference::refusal::Refusal;
use penthluk_reference::text::bit_byte;

/// The drawn networks of document 01, without targets.
const A: [&str; 4] = ["seg 0 4 s", "mux 3 0 0 1", "seg 2 1 s", "out 3"];
const B: [&str; 5] = ["seg 0 2 s", "seg 0 2 s", "mux 4 0 1 2", "seg 3 1 s", "out 4"];
const C: [&str; 4] = ["seg 0 1 s", "seg 1 4 s", "mux 1 0 0 2", "out 3"];
const D: [&str; 3] = ["seg 0 2 s", "mux 1 0 1 1 1", "out 2"];

/// What is printed for a network with more lines, and a plan.
#[track_caller]
fn prints(network: &[&str], more: &[&str], plan: &[&str], lines: &[&str]) {
    let network = text(&[network, more].concat());
    let printed = String::from_utf8(printed(&network, &text(plan))).expect("ASCII");
    assert_eq!(printed.as_bytes(), text(lines), "{printed}");
}

/// Steering segments start as 0, others as X, and a `csu` loads what is on the path.
#[test]
fn drawn_networks() {
    prints(&A, &[], &[], &["hold 1 XXXX", "hold 3 0"]);
    // left open, and closed again
    prints(&A, &[], &["csu 1"], &["hold 1 XXXX", "hold 3 1"]);
    prints(&A, &[], &["csu 1", "csu 00101"], &["hold 1 1010", "hold 3 0"]);
    prints(&A, &["write 1 1010"], &["csu 1", "csu 10101"], &["hold 1 1010", "hold 3 1"]);
    prints(&A, &[], &["csu 1", "csu 11100", "csu 01000"], &["hold 1 0001", "hold 3 0"]);
    prints(&B, &[], &["csu 101"], &["hold 1 10", "hold 2 XX", "hold 4 1"]);
    let both = ["read 1", "read 2"];
    prints(&B, &both, &["csu 100", "csu 000"], &["hold 1 00", "hold 2 00", "hold 4 0"]);
    prints(&B, &both, &["csu 101", "csu 110"], &["hold 1 10", "hold 2 01", "hold 4 1"]);
    prints(&C, &[], &["csu "; 16], &["hold 1 0", "hold 2 XXXX"]);
    prints(&D, &[], &["csu 01"], &["hold 1 10"]);
    prints(&D, &[], &["csu 01", "csu 00"], &["hold 1 00"]);
    prints(&["out 0"], &[], &[], &[]);
    prints(&["out 0"], &[], &["csu "], &[]);
}

/// "BITS starts with the highest bit; bit 0 is nearest scan-out", and bit 0 is shifted first.
#[test]
fn order_of_bits() {
    let network = ["seg 0 3 s", "seg 1 2 s", "out 2"];
    prints(&network, &[], &["csu 10110"], &["hold 1 011", "hold 2 01"]);
    for len in [32, 33, 63, 64] {
        let zeros = "0".repeat(len - 1);
        let (csu, hold) = (format!("csu 1{zeros}"), format!("hold 1 {zeros}1"));
        for kind in ["s", "p"] {
            prints(&[&format!("seg 0 {len} {kind}"), "out 1"], &[], &[&csu], &[&hold]);
        }
    }
    prints(&["seg 0 1 p", "out 1"], &[], &["csu 1"], &["hold 1 1"]);
}

/// A plain segment has its line as one with shadow has; off the path its bits stay.
#[test]
fn both_kinds() {
    let network = ["seg 0 2 p", "seg 1 2 s", "seg 0 2 p", "mux 5 0 2 3", "seg 4 1 s", "out 5"];
    let start = ["hold 1 1X", "hold 3 X0"];
    prints(&network, &start, &[], &["hold 1 1X", "hold 2 XX", "hold 3 X0", "hold 5 0"]);
    let one = ["hold 1 10", "hold 2 01", "hold 3 X0", "hold 5 1"];
    prints(&network, &start, &["csu 11001"], &one);
    let two = ["hold 1 10", "hold 2 01", "hold 3 01", "hold 5 0"];
    prints(&network, &start, &["csu 11001", "csu 010"], &two);
}

/// "it must be the configuration that was left, X for X": start bits from RESET fields and `hold` lines
/// stay where no operation loads them, also those of a steering segment that do not steer.
#[test]
fn unknown_bits() {
    let network = ["seg 0 4 p 0X1X", "seg 0 3 s", "seg 0 2 s X1", "seg 0 3 s X0X", "mux 4 1 3 3"];
    let lines = ["out 5", "hold 2 1X0"];
    let kept = ["hold 1 0X1X", "hold 2 1X0", "hold 3 X1", "hold 4 X0X"];
    prints(&network, &lines, &[], &kept);
    let loaded = ["hold 1 0X1X", "hold 2 1X0", "hold 3 10", "hold 4 X0X"];
    prints(&network, &lines, &["csu 01"], &loaded);
    // a `hold` replaces the whole RESET
    let held = ["out 0", "hold 1 XXXX", "hold 3 0X", "hold 4 111"];
    prints(&network, &held, &[], &["hold 1 XXXX", "hold 2 XXX", "hold 3 0X", "hold 4 111"]);
}

/// A multiplexer's number is passed over; numbers have one or two digits here, three in `largest`.
#[test]
fn numbers() {
    let mut network: Vec<String> = (0..11).map(|from| format!("seg {from} 1 s")).collect();
    network[8] = "mux 11 0 8 0".to_string();
    network.push("out 11".to_string());
    let network: Vec<&str> = network.iter().map(String::as_str).collect();
    // the path is 11, 10 and, behind the multiplexer, 8 to 1
    let lines = [1, 2, 3, 4, 5, 6, 7, 8].map(|segment| format!("hold {segment} {}", segment % 2));
    let mut lines: Vec<&str> = lines.iter().map(String::as_str).collect();
    lines.extend(["hold 10 1", "hold 11 0"]);
    prints(&network, &[], &["csu 0101010101"], &lines);
}

/// Network, plan, number and place of a refusal.
type Refused = (Vec<u8>, Vec<u8>, u32, usize);

/// One of each number, more of some.
fn refusals() -> Vec<Refused> {
    let with = |network: &[&str], more: &[&str]| text(&[network, more].concat());
    let reads = ["read 1", "read 2", "read 3", "read 4", "read 5"];
    let five = ["seg 0 1 s", "seg 1 1 s", "seg 2 1 s", "seg 3 1 s", "seg 4 1 s", "out 5"];
    let network = |text: Vec<u8>, number, place| (text, Vec::new(), number, place);
    let plan =
        |lines: &[&str], plan: &[&str], number, place| (text(lines), text(plan), number, place);
    vec![
        network(text(&["seg 0 4", "out 1"]), 1, 1),
        network(text(&["seg 0 4 s", "out 1", "hold 1 0x01"]), 1, 3),
        network(b"out\t0".to_vec(), 1, 1),
        network(text(&["seg 1 4 s", "out 1"]), 2, 1),
        network(text(&["seg 0 65 s", "out 1"]), 2, 1),
        network(chain(129, 129).text(), 3, 129),
        network(chain(128, 4_001).text(), 3, 128),
        network(long_network(MAX_NETWORK_BYTES + 1), 3, 0),
        network(Vec::new(), 4, 1),
        network(text(&["seg 0 4 s", "hold 1 0000"]), 4, 2),
        network(text(&["seg 0 1 p", "mux 1 0 1 1", "out 2"]), 5, 2),
        network(with(&A, &["hold 1 101"]), 6, 5),
        network(with(&A, &["hold 1 1010", "hold 1 1010"]), 6, 6),
        network(with(&A, &["write 3 1"]), 7, 5),
        network(with(&five, &reads), 8, 11),
        network(with(&A, &["hold 3 X"]), 9, 2),
        network(text(&["seg 0 2 s 0", "out 1"]), 18, 1),
        plan(&A, &["csu 1", "csu"], 14, 2),
        plan(&A, &["csu 1", "csu 1X010"], 14, 2),
        plan(&["out 0"], &["csu "; 17], 14, 17),
        (text(&A), plan_line(MAX_PLAN_BYTES - 4), 14, 0),
        plan(&A, &["csu 1", "csu 0010"], 15, 2),
        plan(&A, &["csu 10101"], 15, 1),
        plan(&D, &["csu 01", "csu 11"], 16, 2),
        (with(&C, &["read 2"]), text(&["csu "]), 17, 1),
        (with(&A, &["write 1 1010", "hold 1 1010"]), Vec::new(), 17, 1),
        (with(&A, &["read 1", "write 1 1010"]), text(&["csu 1", "csu 01010"]), 17, 2),
        // all of the network's before 14, then 15 and 16 by operation, then 17
        (with(&A, &["hold 3 X"]), b"?".to_vec(), 9, 2),
        plan(&A, &["csu 10101", "csu"], 14, 2),
        (with(&D, &["hold 1 10"]), text(&["csu 11", "csu 0"]), 16, 1),
        (with(&A, &["write 1 1010"]), text(&["csu 11"]), 15, 1),
    ]
}

/// "A refusal prints `fail`, number, place", as the mark does, and nothing else.
#[test]
fn refusals_of_the_mark() {
    let mut numbers = Vec::new();
    for (network, plan, number, place) in refusals() {
        let fail = text(&[&format!("fail {number} {place}")]);
        assert_eq!(printed(&network, &plan), fail, "{}", String::from_utf8_lossy(&network));
        assert_eq!(mark(&network, &plan), fail);
        check_refused(&network, &plan, Refusal::new(number, place));
        numbers.push(number);
    }
    numbers.sort_unstable();
    numbers.dedup();
    assert_eq!(numbers, [1, 2, 3, 4, 5, 6, 7, 8, 9, 14, 15, 16, 17, 18]);
}

/// A refusal of the mark comes whatever is lent, before 13.
#[track_caller]
fn check_refused(network: &[u8], plan: &[u8], refusal: Refusal) {
    for length in [0, 1, MAX_HOLD_BYTES] {
        let mut holds = pattern(length);
        assert_eq!(carry::carry(network, plan, &mut holds), Err(refusal));
        assert_eq!(holds, pattern(length));
    }
}

/// "13, bytes needed". "Output buffers change only on success, in the bytes needed."
#[track_caller]
fn check_buffers(network: &[u8], plan: &[u8], lines: &[u8]) {
    assert_eq!(printed(network, plan), lines);
    let needed = lines.len();
    for length in lengths(needed) {
        let mut holds = pattern(length);
        let result = carry::carry(network, plan, &mut holds);
        if length < needed {
            assert_eq!(result, refused(13, needed));
            assert_eq!(holds, pattern(length));
        } else {
            assert_eq!(result, Ok(needed));
            assert_eq!(holds, overwritten(length, lines));
        }
    }
}

#[test]
fn buffers() {
    check_buffers(&text(&["out 0"]), b"", b"");
    check_buffers(&text(&A), &text(&["csu 1"]), &text(&["hold 1 XXXX", "hold 3 1"]));
    // 12 bytes and 9
    let mut holds = pattern(20);
    assert_eq!(carry::carry(&text(&A), &text(&["csu 1"]), &mut holds), refused(13, 21));
}

/// The same for cases of all kinds; the program prints what the call writes.
#[test]
fn generated_buffers() {
    let (mut passed, mut refused) = (0, 0);
    for seed in 0..1_000 {
        let Exercise { network, plan } = carry_case(seed);
        match carry::carried(&network, &plan) {
            Ok(lines) => {
                check_buffers(&network, &plan, &lines);
                passed += 1;
            }
            Err(refusal) => {
                check_refused(&network, &plan, refusal);
                assert_eq!(printed(&network, &plan), mark(&network, &plan));
                refused += 1;
            }
        }
    }
    assert!(passed > 450 && refused > 250, "{passed} {refused}");
}

/// 128 segments and 4,000 bits in a row: the first 32 have 32 bits, the others 31. Bit 0 of the last one is
/// nearest scan-out.
#[test]
fn largest() {
    let network = chain(128, 4_000).text();
    let bit = |place: usize| place % 3 == 1 || place % 7 == 2;
    let shifted: Vec<u8> = (0..4_000).map(|place| bit_byte(bit(place))).collect();
    let plan = [b"csu\t", &shifted[..], b"\n"].concat();
    let mut lines = String::new();
    for segment in 1..=128 {
        let len = if segment <= 32 { 32 } else { 31 };
        let behind = 31 * (128 - segment) + 32_usize.saturating_sub(segment);
        let bits = (0..len).rev().map(|index| if bit(behind + index) { '1' } else { '0' });
        lines += &format!("hold\t{segment}\t{}\n", bits.collect::<String>());
    }
    // 7 bytes a line, 4,000 bits, 9 numbers of one digit, 90 of two and 29 of three
    assert_eq!(lines.len(), 7 * 128 + 4_000 + 9 + 90 * 2 + 29 * 3);
    check_buffers(&network, &plan, lines.as_bytes());
    check_buffers(&network, &[&plan_line(4_000).repeat(15)[..], &plan].concat(), lines.as_bytes());
}

/// The same bits behind a multiplexer, with no operation: 127 segments, which start as X.
#[test]
fn largest_unknown() {
    let mut draft = chain(127, 4_000);
    draft.multiplexer(127, 0, vec![0, 127]);
    draft.out = 128;
    // segment 127 steers
    let line = |segment: usize| {
        let letter = if segment == 127 { "0" } else { "X" };
        format!("hold\t{segment}\t{}\n", letter.repeat(if segment <= 63 { 32 } else { 31 }))
    };
    let lines: String = (1..=127).map(line).collect();
    check_buffers(&draft.text(), b"", lines.as_bytes());
    assert!(lines.len() < MAX_HOLD_BYTES);
}
