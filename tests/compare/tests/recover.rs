//! The proved calls that bring clocks back into a plan answer as the plain Rust version does, for whole
//! texts and a line at a time, and leave the same bytes in the plan buffer, written or not.

mod recover_counts;

use penthluk_compare::lent::Lent;
use penthluk_compare::recover;
use penthluk_reference::generate::clock_faults::{damaged_clocks, CLOCK_FAULTS};
use penthluk_reference::generate::clock_lines::{clk_line, idle_line};
use penthluk_reference::generate::clock_texts::{clock_text, draw_edge_line, draw_edge_plan};
use penthluk_reference::generate::random::Random;
use penthluk_reference::limits::MAX_PLAN_BYTES;
use recover_counts::Counts;

/// Texts of all kinds, whole.
const TEXTS: u64 = 60_000;
/// Texts of all kinds, a line at a time.
const BY_LINE: u64 = 30_000;

/// Whole texts with buffers of all lengths around what is needed.
#[test]
fn generated_texts() {
    let mut counts = Counts::default();
    for seed in 0..TEXTS {
        counts.compare_lengths(&clock_text(seed).text);
    }
    counts.at_least([60_000, 30_000, 100_000]);
}

/// The lines in turn and the end, in buffers of all lengths around what is needed.
#[test]
fn generated_texts_by_line() {
    let mut counts = Counts::default();
    for seed in 0..BY_LINE {
        counts.compare_lines(&clock_text(seed).text);
    }
    counts.at_least([300_000, 20_000, 50_000]);
}

/// Lines of 16,381 clocks and one more; 64,080 bytes of plan and one more.
#[test]
fn texts_at_the_limits() {
    let random = &mut Random::new(5_001);
    let mut counts = Counts::default();
    for _ in 0..200 {
        for text in [draw_edge_line(random).text, draw_edge_plan(random).text] {
            counts.compare_lengths(&text);
            counts.compare_lines(&text);
        }
    }
    counts.at_least([2_000, 300, 800]);
}

/// Each fault alone and with each other one.
#[test]
fn damaged_texts() {
    let random = &mut Random::new(5_002);
    let mut counts = Counts::default();
    for first in CLOCK_FAULTS {
        for second in CLOCK_FAULTS {
            let (text, refusal) = damaged_clocks(random, &[first, second]);
            assert_eq!(counts.compare(&text, MAX_PLAN_BYTES), [19, refusal.place]);
            assert_eq!(counts.compare(&text, 0), [19, refusal.place]);
            counts.compare_lines(&text);
        }
    }
    counts.at_least([2_000, 50, 1_000]);
}

/// Every text of at most three of these lines, every cut of a whole text, and every byte put into it.
#[test]
fn short_texts() {
    let lines = [
        "",
        "clk\t0\t0\n",
        "clk\t1\t1\n",
        "clk\t10\t00\n",
        "clk\t110\t111\n",
        "clk\t11\t00\n",
        "clk\t100110\t000100\n",
        "clk\t10110\t00000\n",
        "clk\t001\t101\n",
        "clk\t0\t\n",
        "clk\t\t0\n",
        "clk\t\t\n",
        "clk\t0\n",
        "clk\n",
        "clk\t0\t00\n",
        "clk\t00\t0\n",
        "clk\t0\t0\t0\n",
        "clk\t0\t0\r\n",
        "clk\t0\tX\n",
        "clk 0 0\n",
        "clk\t0\t0",
        "csu\t0\n",
        "\n",
    ];
    let mut counts = Counts::default();
    for a in lines {
        for b in lines {
            for c in lines {
                let text = format!("{a}{b}{c}");
                counts.compare(text.as_bytes(), 20);
                counts.compare_lines(text.as_bytes());
            }
        }
    }
    let whole = b"clk\t010\t110\nclk\t0010101\t1101011\nclk\t1010110\t0000000\n";
    for end in 0..=whole.len() {
        counts.compare_lengths(&whole[..end]);
        for byte in 0..=255 {
            counts.compare(&[&whole[..end], &[byte], &whole[end..]].concat(), 20);
        }
    }
    counts.at_least([10_000, 100, 20_000]);
}

/// Texts of many lines, and bytes that are no text.
#[test]
fn long_texts() {
    let mut counts = Counts::default();
    let short = idle_line(1).repeat(200_000);
    let passage = b"clk\t100110\t000100\n";
    counts.compare_lengths(&[&short[..], passage].concat());
    let answer = counts.compare(&[&short[..], b"clk\t0\t2\n", passage].concat(), 9);
    assert_eq!(answer, [19, 200_001]);
    let answer = counts.compare(&[passage, &short[..], b"clk\t1\t0\n"].concat(), 9);
    assert_eq!(answer, [19, 200_002]);
    for length in [32_766, 32_767, 32_768, 32_769, 70_000, 1_000_000] {
        for byte in [b'0', b'\n', b'\t', b'c', 0, 255] {
            counts.compare(&vec![byte; length], 9);
            counts.compare_lines(&[&passage[..], &vec![byte; length]].concat());
        }
        let fields = vec![b'0'; length];
        counts.compare(&clk_line(&fields, &fields), 9);
        counts.compare_lines(&clk_line(b"0", &fields));
    }
    counts.at_least([30, 1, 80]);
}

/// Progresses that no line leaves behind, and those at the limits.
#[test]
fn any_progress() {
    let random = &mut Random::new(5_003);
    let mut counts = Counts::default();
    for _ in 0..100_000 {
        counts.compare_progress(random);
    }
    counts.at_least([30_000, 8_000, 100_000]);
}

/// The answer is the same whatever stands in the buffer.
#[test]
fn buffer_is_not_read() {
    for seed in 0..2_000 {
        let text = clock_text(seed).text;
        let mut lent = Lent::bytes(MAX_PLAN_BYTES);
        let mut zeros = vec![0; MAX_PLAN_BYTES];
        let answer = recover(&text, lent.buffer());
        assert_eq!(recover(&text, &mut zeros), answer);
        if answer[0] == 0 {
            assert_eq!(lent.buffer()[..answer[1]], zeros[..answer[1]]);
        }
    }
}
