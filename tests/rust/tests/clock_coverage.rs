//! The generated texts of clocks have every form, and the way they are made tells what they give.

use std::collections::BTreeMap;

use penthluk_reference::generate::clock_faults::{damaged_clocks, ClockFault, CLOCK_FAULTS};
use penthluk_reference::generate::clock_forms::clock_forms;
use penthluk_reference::generate::clock_texts::clock_text;
use penthluk_reference::generate::followed::{follow_text, Reason};
use penthluk_reference::generate::random::Random;
use penthluk_reference::recover::recover;

const TEXTS: u64 = 24_000;

/// What a text must have, and how many texts at least have it. Those that name no refusal and no byte
/// or line are counted in accepted texts only.
const WANTED: [(&str, usize); 42] = [
    ("empty text", 300),
    ("CR", 400),
    ("NUL", 200),
    ("byte above 127", 400),
    ("empty line", 300),
    ("line of 32,767 bytes", 10),
    ("line of 32,768 bytes", 200),
    ("line of 32,769 bytes", 15),
    ("line of more bytes", 150),
    ("line of 16,381 clocks", 200),
    ("line of 16,382 clocks", 40),
    ("refused: line too long", 150),
    ("refused: last line unended", 300),
    ("refused: form", 3_000),
    ("refused: empty field", 800),
    ("refused: unequal lengths", 900),
    ("refused: entry to Select-IR", 300),
    ("refused: seventeenth entry", 600),
    ("refused: plan too long", 200),
    ("refused: 64,081 bytes of plan", 150),
    ("refused: plan too long by an entry", 40),
    ("refused: end outside Run-Test/Idle", 300),
    ("refused at line 1", 3_000),
    ("refused behind line 1", 4_000),
    ("refused within a passage", 2_500),
    ("accepted", 6_000),
    ("16 entries", 500),
    ("64,080 bytes of plan", 60),
    ("TDI 1 outside Shift-DR", 2_500),
    ("idle stretch", 2_500),
    ("wait in Pause-DR", 1_500),
    ("shifting on after Exit2-DR", 2_000),
    ("Exit2-DR to Update-DR", 1_600),
    ("Update-DR to Select-DR", 1_500),
    ("a clock a line", 300),
    ("passage without bits", 1_500),
    ("passage without bits, with a pause", 500),
    ("pause before the first bit", 1_500),
    ("two pauses in a passage", 1_300),
    ("passage over several lines", 1_500),
    ("passage over four lines or more", 1_000),
    ("several passages in a line", 1_000),
];

#[test]
fn every_form_comes() {
    let mut counts: BTreeMap<&str, usize> = BTreeMap::new();
    for seed in 0..TEXTS {
        for form in clock_forms(&clock_text(seed).text) {
            assert!(WANTED.iter().any(|(wanted, _)| *wanted == form), "{form}");
            *counts.entry(form).or_default() += 1;
        }
    }
    for (form, least) in WANTED {
        let count = counts.get(form).copied().unwrap_or(0);
        assert!(count >= least, "{form}: {count} times, {counts:#?}");
    }
}

/// What is known of a text from the way it is made, what its clocks give one by one, and what
/// `recover` gives are the same.
#[test]
fn known_answers() {
    let mut known = [0; 2];
    for seed in 0..TEXTS {
        let text = clock_text(seed);
        let answer = follow_text(&text.text).answer();
        assert_eq!(recover(&text.text), answer, "seed {seed}");
        if let Some(expected) = text.known {
            assert_eq!(answer, expected, "seed {seed}");
            known[usize::from(answer.is_err())] += 1;
        }
    }
    assert!(known[0] > 8_000 && known[1] > 9_000, "{known:?}");
}

/// Whether a fault alone can give this reason.
fn gives(fault: ClockFault, reason: Reason) -> bool {
    let reasons: &[Reason] = match fault {
        ClockFault::EmptyTms | ClockFault::EmptyTdi | ClockFault::EmptyBoth => {
            &[Reason::EmptyField]
        }
        ClockFault::LongerTms | ClockFault::LongerTdi => &[Reason::Unequal, Reason::TooLong],
        // of a line of one clock no TMS is left
        ClockFault::MovedTab => &[Reason::Unequal, Reason::EmptyField],
        ClockFault::TooLong => &[Reason::TooLong],
        ClockFault::Unended => &[Reason::Unended],
        ClockFault::SelectIr => &[Reason::SelectIr],
        ClockFault::Entry17 => &[Reason::Entry17],
        ClockFault::PlanTooLong => &[Reason::PlanTooLong],
        ClockFault::EndOutside => &[Reason::EndOutside],
        // the longest line with one byte more
        _ => &[Reason::Form, Reason::TooLong],
    };
    reasons.contains(&reason)
}

#[test]
fn every_fault_alone() {
    let random = &mut Random::new(901);
    for fault in CLOCK_FAULTS {
        let mut lines = BTreeMap::new();
        for _ in 0..100 {
            let (text, refusal) = damaged_clocks(random, &[fault]);
            let followed = follow_text(&text);
            assert_eq!(recover(&text), Err(refusal), "{fault:?}");
            assert_eq!(followed.answer(), Err(refusal), "{fault:?}");
            let (line, reason) = followed.refused.expect("a refusal");
            assert!(gives(fault, reason), "{fault:?}: {reason:?}");
            *lines.entry(line).or_insert(0) += 1;
        }
        // so many bits do not fit into one line
        let first = lines.contains_key(&1) || fault == ClockFault::PlanTooLong;
        assert!(lines.len() >= 5 && first, "{fault:?}: {lines:?}");
    }
}

/// Of two faults that of the lowest line is the refusal.
#[test]
fn every_pair_of_faults() {
    let random = &mut Random::new(902);
    for (index, first) in CLOCK_FAULTS.into_iter().enumerate() {
        for second in CLOCK_FAULTS.into_iter().skip(index + 1) {
            for _ in 0..12 {
                let (text, refusal) = damaged_clocks(random, &[first, second]);
                assert_eq!(recover(&text), Err(refusal), "{first:?}, {second:?}");
                let followed = follow_text(&text);
                assert_eq!(followed.answer(), Err(refusal), "{first:?}, {second:?}");
                let (_, reason) = followed.refused.expect("a refusal");
                let gives = [first, second].into_iter().any(|fault| gives(fault, reason));
                assert!(gives, "{first:?}, {second:?}: {reason:?}");
            }
        }
    }
}
