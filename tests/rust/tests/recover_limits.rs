//! "a line over 32,768 bytes, [..] a seventeenth entry to Capture-DR, more than 64,080 bytes of plan (5
//! for each entry, 1 for each bit)"

mod common;

use common::{refused, text};
use penthluk_reference::generate::clock_lines::{clk_line, idle_line, LONGEST_LINE};
use penthluk_reference::generate::clock_texts::draw_operations;
use penthluk_reference::generate::edges::plan_line;
use penthluk_reference::generate::random::Random;
use penthluk_reference::plan_text::write_plan;
use penthluk_reference::programs::clock;
use penthluk_reference::recover::recover;
use penthluk_reference::refusal::Refusal;

/// What a text gives; of long plans only the lengths are shown.
#[track_caller]
fn gives(text: &[u8], expected: Result<Vec<u8>, Refusal>) {
    let given = recover(text);
    let same = given == expected;
    let [given, expected] = [given, expected].map(|answer| answer.map(|plan| plan.len()));
    assert!(same, "{given:?} in place of {expected:?}");
}

/// The line of a passage without bits.
const NO_BITS: &[u8] = b"clk\t10110\t00000\n";

#[test]
fn line_length() {
    for (clocks, bytes) in [(16_380, 32_766), (16_381, 32_768)] {
        assert_eq!(idle_line(clocks).len(), bytes);
        gives(&idle_line(clocks), Ok(Vec::new()));
    }
    assert_eq!(LONGEST_LINE, 16_381);
    for clocks in [16_382, 16_383, 20_000, 40_000] {
        gives(&idle_line(clocks), refused(19, 1));
        gives(&[idle_line(5), idle_line(clocks)].concat(), refused(19, 2));
    }
    // of unequal fields, 32,767 and 32,769 bytes
    for (tms, tdi) in [(16_380, 16_381), (16_381, 16_380), (16_381, 16_382), (16_382, 16_381)] {
        let line = clk_line(&vec![b'0'; tms], &vec![b'0'; tdi]);
        gives(&line, refused(19, 1));
    }
    // without an end
    for length in [32_767, 32_768, 32_769, 1_000_000] {
        gives(&vec![b'0'; length], refused(19, 1));
        gives(&idle_line(length)[..length], refused(19, 1));
    }
}

/// The longest line in each state that stays while TMS is 0: of 40,000 bits 16,378 are in the first.
#[test]
fn longest_lines() {
    let bits: Vec<bool> = (0..40_000).map(|bit| bit % 3 == 0 || bit % 7 == 0).collect();
    let tdi: Vec<u8> = bits.iter().map(|&bit| if bit { b'1' } else { b'0' }).collect();
    let shifting = [
        clk_line(&[b"100", &vec![b'0'; 16_378][..]].concat(), &[b"000", &tdi[..16_378]].concat()),
        clk_line(&vec![b'0'; 16_381], &tdi[16_378..32_759]),
        clk_line(&[&vec![b'0'; 7_240][..], b"110"].concat(), &[&tdi[32_759..], b"00"].concat()),
    ];
    gives(&shifting.concat(), Ok(write_plan(&[bits])));
    let pausing =
        [&b"clk\t1010\t1111\n"[..], &idle_line(16_381), &idle_line(16_381), b"clk\t110\t000\n"];
    gives(&pausing.concat(), Ok(b"csu\t\n".to_vec()));
}

#[test]
fn entries() {
    gives(&NO_BITS.repeat(16), Ok(plan_line(0).repeat(16)));
    gives(&NO_BITS.repeat(17), refused(19, 17));
    gives(&NO_BITS.repeat(40), refused(19, 17));
    let sixteen = NO_BITS.repeat(16);
    for (lines, place) in [
        // at the line of the clock whose TMS leads there
        (&["clk 1 0", "clk 0 0", "clk 110 000"][..], 18),
        (&["clk 10 00", "clk 110 000"], 17),
        (&["clk 0 0", "clk 1 0", "clk 0 0"], 19),
        // Select-DR is entered, Capture-DR is not.
        (&["clk 1 0"], 17),
        (&["clk 1 0", "clk 1 0"], 18),
    ] {
        gives(&[&sixteen[..], &text(lines)].concat(), refused(19, place));
    }
    // in one line
    let [tms, tdi] = [b"10110", b"00000"].map(|field| field.repeat(17));
    gives(&clk_line(&tms[..80], &tdi[..80]), Ok(plan_line(0).repeat(16)));
    gives(&clk_line(&tms, &tdi), refused(19, 1));
}

/// Clocks of one operation of so many bits, in lines of up to 8,000.
fn operation(bits: usize) -> Vec<u8> {
    let tms = [&b"100"[..], &vec![b'0'; bits - 1], b"110"].concat();
    let tdi = vec![b'0'; tms.len()];
    tms.chunks(8_000).zip(tdi.chunks(8_000)).flat_map(|(tms, tdi)| clk_line(tms, tdi)).collect()
}

#[test]
fn plan_bytes() {
    // One operation: 64,080 clocks are eight lines of 8,000 and one of 80.
    gives(&operation(64_075), Ok(plan_line(64_075)));
    gives(&operation(64_076), refused(19, 9));
    gives(&operation(100_000), refused(19, 9));
    // Sixteen of 4,000 bits, and one bit more in the last or in the first.
    let line = |bits: usize| clock(&plan_line(bits));
    let longest = plan_line(4_000).repeat(16);
    gives(&clock(&longest), Ok(longest));
    gives(&[line(4_000).repeat(15), line(4_001)].concat(), refused(19, 16));
    gives(&[line(4_001), line(4_000).repeat(15)].concat(), refused(19, 16));
    gives(&[line(4_002), line(4_000).repeat(15)].concat(), refused(19, 16));
    // 64,075 bytes leave room for an entry, 64,076 to 64,080 do not.
    let room = [operation(64_070), NO_BITS.to_vec()].concat();
    gives(&room, Ok([plan_line(64_070), plan_line(0)].concat()));
    for bits in 64_071..=64_075 {
        // The last line of the operation is the ninth.
        gives(&[operation(bits), NO_BITS.to_vec()].concat(), refused(19, 10));
    }
    // at the line of the clock that goes over
    let first = [operation(64_075 - 5), b"clk\t100\t000\n".to_vec()].concat();
    gives(&[&first[..], b"clk\t0\t0\nclk\t1\t0\n"].concat(), refused(19, 11));
    gives(&first, refused(19, 10));
}

/// "The clocks written for any plan text of good form, with at most 4,016 bits a line, give back its
/// bytes."
#[test]
fn round_trip() {
    let random = &mut Random::new(911);
    let mut longest = 0;
    for round in 0..3_000 {
        let count = random.below(17);
        let most = if round % 100 == 0 { 4_016 } else { *random.pick(&[0, 1, 9, 60, 300]) };
        let plan = write_plan(&draw_operations(random, count, most));
        if plan.len() <= 64_080 {
            longest = longest.max(plan.len());
            gives(&clock(&plan), Ok(plan));
        }
    }
    assert!(longest > 30_000, "{longest}");
    let most = [plan_line(4_016).repeat(15), plan_line(3_760)].concat();
    assert_eq!(most.len(), 64_080);
    gives(&clock(&most), Ok(most));
    // Longer lines fit up to 16,381 clocks.
    gives(&clock(&plan_line(16_376)), Ok(plan_line(16_376)));
    gives(&clock(&plan_line(16_377)), refused(19, 1));
}
