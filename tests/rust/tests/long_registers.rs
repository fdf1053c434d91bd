//! "The new diverter drivers have 64-bit registers. The stored bits and known marks grow from 32 to 64, LEN
//! may be 64, and 65 is refused as 33 was." By hand, from document 01's rules.

mod common;

use common::text;
use penthluk_reference::generate::random::Random;
use penthluk_reference::marker;
use penthluk_reference::play::check_pass;
use penthluk_reference::programs::{carry, clock, mark, plan, read};
use penthluk_reference::reader::read_network;

/// 64 bits as they are written, highest first, and the same from the lowest up.
const WRITTEN: [&str; 4] =
    ["1101000000000001", "0000000011111110", "1010110011100010", "0110000000000000"];
const SHIFTED: [&str; 4] =
    ["0000000000000110", "0100011100110101", "0111111100000000", "1000000000001011"];

fn zeros(count: usize) -> String {
    "0".repeat(count)
}

/// A text from nodes and further lines.
fn network(nodes: &[&str], more: &[&str]) -> Vec<u8> {
    text(&[nodes, more].concat())
}

#[track_caller]
fn prints(printed: Vec<u8>, lines: &[&str]) {
    let shown = String::from_utf8(printed).expect("ASCII");
    assert_eq!(shown.as_bytes(), text(lines), "{shown}");
}

/// What a plan's pass says holds on the test frame.
#[track_caller]
fn plays(network: &[u8], plan: &[u8]) {
    let pass = marker::mark(network, plan).expect("it passes");
    let network = read_network(network).expect("it is accepted");
    let random = &mut Random::new(64);
    for _ in 0..5 {
        assert_eq!(check_pass(&network, plan, &pass, &mut || random.bit()), Ok(()));
    }
}

/// One register, of either kind: "Scan-in bit i (from 0) ends at place i", and place i is its bit i.
#[test]
fn one_register() {
    let (written, shifted) = (WRITTEN.concat(), SHIFTED.concat());
    for kind in ["s", "p"] {
        let segment = format!("seg 0 64 {kind}");
        let write = format!("write 1 {written}");
        let text_of = |more: &[&str]| network(&[&segment, "out 1"], more);
        prints(read(&text_of(&[])), &["ok 1 64 0 64"]);
        let asked = text_of(&[&write, "read 1"]);
        let planned = plan(&asked);
        prints(planned.clone(), &[&format!("csu {shifted}")]);
        prints(mark(&asked, &planned), &["pass 1 69", "got 2 1 0"]);
        // TMS 1, 0, 0, then 63 zeros and a 1, then 1, 0; TDI is 0 outside Shift-DR
        let clocks = format!("clk 100{}110 000{shifted}00", zeros(63));
        prints(clock(&planned), &[&clocks]);
        prints(carry(&asked, &planned), &[&format!("hold 1 {written}")]);
        plays(&asked, &planned);
        // the highest bit sent to the place nearest scan-out
        prints(mark(&asked, &text(&[&format!("csu {written}")])), &["fail 17 1"]);
        // one bit too few and one too many
        prints(mark(&asked, &text(&[&format!("csu {}", &shifted[1..])])), &["fail 15 1"]);
        prints(mark(&asked, &text(&[&format!("csu {shifted}0")])), &["fail 15 1"]);
    }
}

/// Every single bit of 64 by itself, in a write, in a `hold`, in a RESET and as the one X of both.
#[test]
fn every_bit() {
    for bit in 0..64 {
        let single = |letter: &str| zeros(63 - bit) + letter + &zeros(bit);
        let asked = network(&["seg 0 64 s", "out 1"], &[&format!("write 1 {}", single("1"))]);
        let csu = format!("csu {}1{}", zeros(bit), zeros(63 - bit));
        prints(plan(&asked), &[&csu]);
        for letter in ["1", "X"] {
            let hold = format!("hold 1 {}", single(letter));
            prints(carry(&network(&["seg 0 64 s", "out 1"], &[&hold]), b""), &[&hold]);
            let segment = format!("seg 0 64 p {}", single(letter));
            prints(carry(&network(&[&segment, "out 1"], &[]), b""), &[&hold]);
        }
    }
}

/// Segment 4 is on every path; its bit 63 chooses between segments of 5 and of 3 bits.
const TWO_WAYS: [&str; 3] = ["seg 0 5 s", "seg 0 3 p", "mux 4 63 1 2"];

/// `TWO_WAYS` with these start bits in a RESET, and in a `hold`.
fn two_ways(start: &str, more: &[&str]) -> [Vec<u8>; 2] {
    let reset = format!("seg 3 64 s {start}");
    let hold = format!("hold 4 {start}");
    [
        network(&TWO_WAYS, &[&[&reset, "out 4"], more].concat()),
        network(&TWO_WAYS, &[&["seg 3 64 s", "out 4", &hold], more].concat()),
    ]
}

#[test]
fn highest_bit_chooses() {
    let unset = network(&TWO_WAYS, &["seg 3 64 s", "out 4"]);
    prints(read(&unset), &["ok 4 72 1 69"]);
    for (start, line) in [
        (zeros(64), "ok 4 72 1 69"),
        ("0".to_string() + &"1".repeat(63), "ok 4 72 1 69"),
        ("0".to_string() + &"X".repeat(63), "ok 4 72 1 69"),
        ("1".to_string() + &zeros(63), "ok 4 72 1 67"),
        ("1".to_string() + &"X".repeat(63), "ok 4 72 1 67"),
        ("X".to_string() + &zeros(63), "fail 9 3"),
        ("X".to_string() + &"1".repeat(63), "fail 9 3"),
    ] {
        for text in two_ways(&start, &[]) {
            prints(read(&text), &[line]);
        }
    }
    // a bit beyond the segment
    prints(
        read(&network(&["seg 0 1 s", "mux 3 64 0 1", "seg 2 64 s", "out 3"], &[])),
        &["fail 5 2"],
    );
    prints(
        read(&network(&["seg 0 1 s", "mux 3 63 0 1", "seg 2 63 s", "out 3"], &[])),
        &["fail 5 2"],
    );
}

/// Both segments are read, first the one that the start has on the path. The places of segment 4 are 0 to
/// 63, those of the chosen one come behind.
#[test]
fn both_ways_read() {
    let reads = ["read 1", "read 2"];
    let (to_second, to_first) = (zeros(63) + "1", zeros(64));
    let [reset, hold] = two_ways(&zeros(64), &reads);
    for text in [reset, hold, network(&TWO_WAYS, &["seg 3 64 s", "out 4", "read 1", "read 2"])] {
        let planned = plan(&text);
        prints(planned.clone(), &[&format!("csu {to_second}00000"), &format!("csu {}", zeros(67))]);
        prints(mark(&text, &planned), &["pass 2 146", "got 1 1 64", "got 2 2 64"]);
        plays(&text, &planned);
        let left = format!("hold 4 {}", zeros(64));
        prints(carry(&text, &planned), &["hold 1 00000", "hold 2 000", &left]);
    }
    for text in two_ways(&("1".to_string() + &zeros(63)), &reads) {
        let planned = plan(&text);
        prints(planned.clone(), &[&format!("csu {to_first}000"), &format!("csu {}", zeros(69))]);
        prints(mark(&text, &planned), &["pass 2 146", "got 1 2 64", "got 2 1 64"]);
        plays(&text, &planned);
    }
    // the second operation has the length of the other way
    let [text, _] = two_ways(&zeros(64), &[]);
    let same = format!("csu {}", zeros(69));
    prints(mark(&text, &common::text(&[&same, &same])), &["pass 2 148"]);
    let turned = format!("csu {to_second}01100");
    prints(mark(&text, &common::text(&[&turned, &same])), &["fail 15 2"]);
    let left = format!("hold 4 1{}", zeros(63));
    prints(carry(&text, &common::text(&[&turned])), &["hold 1 00110", "hold 2 XXX", &left]);
}

/// Bits 62 and 63 of segment 5 choose among segments of 1, 2 and 3 bits and, with four inputs, scan-in.
fn four_ways(fourth: &str, start: &str, more: &[&str]) -> [Vec<u8>; 2] {
    let multiplexer = format!("mux 5 62 1 2 3{fourth}");
    let nodes = ["seg 0 1 s", "seg 0 2 s", "seg 0 3 s", &multiplexer];
    let reset = format!("seg 4 64 s {start}");
    let hold = format!("hold 5 {start}");
    [
        network(&nodes, &[&[&reset, "out 5"], more].concat()),
        network(&nodes, &[&["seg 4 64 s", "out 5", &hold], more].concat()),
    ]
}

/// "BIT + 2 × (the bit above) by their values for three or four."
#[test]
fn highest_two_bits_choose() {
    for below in [zeros(62), "1".repeat(62), "X".repeat(62)] {
        for (address, length) in [("00", 65), ("01", 66), ("10", 67), ("11", 64)] {
            let line = format!("ok 5 70 2 {length}");
            for text in four_ways(" 0", &format!("{address}{below}"), &[]) {
                prints(read(&text), &[&line]);
            }
            let line = if address == "11" { "fail 9 4".to_string() } else { line };
            for text in four_ways("", &format!("{address}{below}"), &[]) {
                prints(read(&text), &[&line]);
            }
        }
        for address in ["X0", "0X", "X1", "1X", "XX"] {
            for fourth in ["", " 0"] {
                for text in four_ways(fourth, &format!("{address}{below}"), &[]) {
                    prints(read(&text), &["fail 9 4"]);
                }
            }
        }
    }
    for inputs in ["1 1 1", "1 1 1 1"] {
        for (len, bit) in [(64, 63), (63, 62)] {
            let lines = [format!("mux 3 {bit} {inputs}"), format!("seg 2 {len} s")];
            prints(read(&text(&["seg 0 1 s", &lines[0], &lines[1], "out 3"])), &["fail 5 2"]);
        }
    }
}

/// Address 1 is bit 62, address 2 is bit 63.
#[test]
fn ways_written() {
    for [text, held] in
        [four_ways("", &zeros(64), &["write 3 110"]), four_ways(" 0", &zeros(64), &["write 3 110"])]
    {
        let operations = [format!("csu {}10", zeros(63)), format!("csu {}011", zeros(64))];
        for text in [text, held] {
            let planned = plan(&text);
            prints(planned.clone(), &[&operations[0], &operations[1]]);
            prints(mark(&text, &planned), &["pass 2 142"]);
            plays(&text, &planned);
        }
    }
    for text in four_ways("", &zeros(64), &["write 2 01"]) {
        let planned = plan(&text);
        let operations = [format!("csu {}100", zeros(62)), format!("csu {}10", zeros(64))];
        prints(planned.clone(), &[&operations[0], &operations[1]]);
        prints(mark(&text, &planned), &["pass 2 141"]);
        // both bits: an address that is not below three
        prints(mark(&text, &common::text(&[&format!("csu {}110", zeros(62))])), &["fail 16 1"]);
    }
}
