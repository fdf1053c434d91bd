//! The proved reader answers as the plain Rust version does.

use penthluk_compare::{read, read_line};
use penthluk_reference::generate::cases::draw_network_text;
use penthluk_reference::generate::long_cases::{draw_long_text, long_random};
use penthluk_reference::generate::random::Random;
use penthluk_reference::generate::reset_cases::{
    draw_reset_text, long_reset, long_reset_chain, reset_random,
};
use penthluk_reference::programs;

const TEXTS: u64 = 120_000;

/// Texts with RESET fields.
const RESET_TEXTS: u64 = 60_000;

/// Texts with long registers.
const LONG_TEXTS: u64 = 60_000;

#[track_caller]
fn compare(text: &[u8]) -> usize {
    let answer = read(text);
    let line = read_line(answer);
    let expected = programs::read(text);
    assert_eq!(
        String::from_utf8_lossy(&line),
        String::from_utf8_lossy(&expected),
        "{:?}",
        String::from_utf8_lossy(text)
    );
    answer[0]
}

/// Same number and place, same counts, and every refusal comes.
#[test]
fn generated_texts() {
    let mut counts = [0usize; 10];
    for seed in 0..TEXTS {
        counts[compare(&draw_network_text(&mut Random::new(seed)))] += 1;
    }
    assert!(counts.iter().all(|&count| count as u64 >= TEXTS / 1_000), "{counts:?}");
}

/// The same for texts with RESET fields, and 18 comes too.
#[test]
fn generated_texts_with_resets() {
    let mut counts = [0usize; 19];
    for seed in 0..RESET_TEXTS {
        counts[compare(&draw_reset_text(&mut reset_random(seed)))] += 1;
    }
    let least = |number: usize| counts[number] as u64 >= RESET_TEXTS / 1_000;
    assert!((0..=9).chain([18]).all(least), "{counts:?}");
}

/// The same for texts with registers up to 64 bits.
#[test]
fn generated_texts_with_long_registers() {
    let mut counts = [0usize; 19];
    for seed in 0..LONG_TEXTS {
        counts[compare(&draw_long_text(&mut long_random(seed)))] += 1;
    }
    let least = |number: usize| counts[number] as u64 >= LONG_TEXTS / 2_000;
    assert!((0..=9).chain([18]).all(least), "{counts:?}");
}

/// Every text of at most two lines from a few words, and every cut of a whole text.
#[test]
fn short_texts() {
    let lines = [
        "",
        "out\t0\n",
        "out\t1\n",
        "seg\t0\t1\ts\n",
        "seg\t0\t32\tp\n",
        "seg\t0\t33\ts\n",
        "seg\t0\t64\tp\n",
        "seg\t0\t65\ts\n",
        "mux\t1\t63\t0\t0\n",
        "seg\t0\t01\ts\n",
        "mux\t1\t0\t0\t0\n",
        "mux\t2\t0\t0\t1\n",
        "hold\t1\tX\n",
        "write\t1\t1\n",
        "read\t1\n",
        "csu\t0\n",
        "\n",
        "out\t0",
        "out\t0\r\n",
        "out \t0\n",
        "seg\t0\t1\ts\t\n",
        "seg\t0\t1\ts\t1\n",
        "seg\t0\t1\tp\tX\n",
        "seg\t0\t1\ts\t01\n",
        "seg\t0\t2\ts\t1\n",
        "seg\t0\t65\ts\t0\n",
        "seg\t0\t1\ts\tx\n",
        "seg\t0\t1\ts\t0\t0\n",
        "seg\t0\t1\ts\t0",
    ];
    for a in lines {
        for b in lines {
            for c in lines {
                compare(format!("{a}{b}{c}").as_bytes());
            }
        }
    }
    let whole = b"seg\t0\t2\ts\nseg\t0\t2\ts\nmux\t4\t0\t1\t2\nseg\t3\t1\ts\nout\t4\nhold\t1\t1X\nread\t1\nwrite\t2\t10\n";
    for end in 0..=whole.len() {
        compare(&whole[..end]);
    }
    let whole = b"seg\t0\t3\ts\t1X0\nseg\t0\t2\tp\tXX\nmux\t4\t0\t1\t2\nseg\t3\t1\ts\t1\nout\t4\nhold\t4\t0\nread\t1\n";
    for end in 0..=whole.len() {
        compare(&whole[..end]);
        for byte in *b"01X2x\t\n" {
            let mut changed = whole[..end].to_vec();
            changed.push(byte);
            changed.extend_from_slice(&whole[end..]);
            compare(&changed);
        }
    }
}

/// Texts about as long as a text may be.
#[test]
fn long_texts() {
    for length in [16_383, 16_384, 16_385, 16_386, 70_000] {
        for byte in [b'0', b'\n', b'\t', 0, 255] {
            compare(&vec![byte; length]);
        }
        for line in [&b"seg\t0\t1\ts\n"[..], b"seg\t0\t1\ts\tX\n", b"seg\t0\t2\tp\t1"] {
            let text: Vec<u8> = line.iter().copied().cycle().take(length).collect();
            compare(&text);
        }
        compare(&long_reset(length));
        compare(&long_reset_chain(&mut Random::new(4_001), length));
    }
}
