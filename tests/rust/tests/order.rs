//! "Order: text length; then line by line 1, 4, 2, 3, 6, 7, 8; 5 follows 2 on the `out` line; a
//! missing `out` at the end; then 9." 18 comes "directly after 2".

mod common;

use common::{refused, text};
use penthluk_reference::generate::cases::damaged_with;
use penthluk_reference::generate::damage::Damaged;
use penthluk_reference::generate::faults::{all_faults, Fault, FAULTS, RESET_FAULTS};
use penthluk_reference::generate::long_cases::{draw_long_faults, long_damaged_with};
use penthluk_reference::generate::plan_damage::{damage_plan, PLAN_FAULTS};
use penthluk_reference::generate::random::Random;
use penthluk_reference::generate::reset_cases::reset_damaged_with;
use penthluk_reference::limits::{MAX_PLAN_BYTES, SEARCH_ENTRIES};
use penthluk_reference::marker::mark;
use penthluk_reference::planner::make_plan;
use penthluk_reference::reader::read_network;
use penthluk_reference::refusal::Refusal;

/// Puts these faults into a network and compares the reader with the order rule.
fn check(random: &mut Random, faults: &[Fault]) -> (Option<Refusal>, usize) {
    let damaged = damaged_with(random, faults);
    compare(damaged, faults)
}

/// As `check`, where the network has RESET fields.
fn check_with_resets(random: &mut Random, faults: &[Fault]) -> (Option<Refusal>, usize) {
    let damaged = reset_damaged_with(random, faults);
    compare(damaged, faults)
}

/// As `check`, where the segments have 63 and 64 bits.
fn check_long(random: &mut Random, faults: &[Fault]) -> (Option<Refusal>, usize) {
    let damaged = long_damaged_with(random, faults);
    compare(damaged, faults)
}

fn compare((damaged, put): (Damaged, usize), faults: &[Fault]) -> (Option<Refusal>, usize) {
    let text = damaged.text();
    let refusal = read_network(&text).err();
    assert_eq!(refusal, damaged.expected(), "{faults:?}: {}", String::from_utf8_lossy(&text));
    (refusal, put)
}

#[test]
fn no_fault() {
    let random = &mut Random::new(400);
    for _ in 0..200 {
        assert_eq!(check(random, &[]), (None, 0));
        assert_eq!(check_with_resets(random, &[]), (None, 0));
        assert_eq!(check_long(random, &[]), (None, 0));
    }
}

#[test]
fn one_fault() {
    let random = &mut Random::new(401);
    for fault in FAULTS {
        for _ in 0..100 {
            let (refusal, put) = check(random, &[fault]);
            if put == 1 {
                assert_eq!(refusal.map(|refusal| refusal.number), Some(fault.number()));
            }
        }
    }
}

#[test]
fn one_fault_with_resets_and_long_registers() {
    let random = &mut Random::new(404);
    for fault in all_faults() {
        for check in [check_with_resets, check_long] {
            let mut decided = 0;
            for _ in 0..100 {
                let (refusal, put) = check(random, &[fault]);
                if put == 1 {
                    assert_eq!(refusal.map(|refusal| refusal.number), Some(fault.number()));
                    decided += 1;
                }
            }
            assert!(decided >= 50, "{fault:?}: {decided}");
        }
    }
}

/// Every pair of faults with different numbers. Both numbers decide in some pairs.
#[test]
fn two_faults() {
    let random = &mut Random::new(402);
    let mut decided = [[0; 10]; 10];
    for first in FAULTS {
        for second in FAULTS {
            if first.number() >= second.number() {
                continue;
            }
            for _ in 0..40 {
                if let (Some(refusal), 2) = check(random, &[first, second]) {
                    let [low, high] = [first.number(), second.number()].map(|n| n as usize);
                    decided[low][high] += usize::from(refusal.number as usize == low);
                    decided[high][low] += usize::from(refusal.number as usize == high);
                }
            }
        }
    }
    // 9 never comes before another number; of any two others each comes first in some text.
    for low in 1..9 {
        assert!(decided[low][9] > 0 && decided[9][low] == 0, "{low}: {decided:?}");
        for high in low + 1..9 {
            assert!(decided[low][high] > 0, "{low} before {high}: {decided:?}");
        }
    }
    for (high, low) in [(2, 1), (3, 1), (3, 2), (4, 1), (4, 2), (4, 3), (5, 1), (5, 4), (6, 1)] {
        assert!(decided[high][low] > 0, "{high} before {low}: {decided:?}");
    }
}

/// Every pair of faults with different numbers, one of them at a RESET field.
#[test]
fn two_faults_with_resets() {
    let random = &mut Random::new(405);
    let mut decided = [[0; 19]; 19];
    for first in RESET_FAULTS {
        for second in all_faults() {
            let [one, other] = [first, second].map(|fault| fault.number() as usize);
            if one == other {
                continue;
            }
            for _ in 0..20 {
                if let (Some(refusal), 2) = check_with_resets(random, &[first, second]) {
                    decided[one][other] += usize::from(refusal.number as usize == one);
                    decided[other][one] += usize::from(refusal.number as usize == other);
                }
            }
        }
    }
    // The lines before `out` have 1, 2, 3, 4 and 18 in any order; the others come behind them.
    for low in 1..=4 {
        assert!(decided[low][18] > 20 && decided[18][low] > 20, "{low}: {decided:?}");
    }
    for high in 5..=9 {
        assert!(decided[18][high] > 20 && decided[high][18] == 0, "{high}: {decided:?}");
    }
}

/// Pairs of faults where the segments are long, one of them most often at a length or an upper bit.
#[test]
fn two_faults_with_long_registers() {
    let random = &mut Random::new(406);
    let mut decided = [[0; 19]; 19];
    for _ in 0..20_000 {
        let faults = draw_long_faults(random, 2);
        if let (Some(refusal), 2) = check_long(random, &faults) {
            let [one, other] = [faults[0], faults[1]].map(|fault| fault.number() as usize);
            decided[one][other] += usize::from(refusal.number as usize == one);
            decided[other][one] += usize::from(refusal.number as usize == other);
        }
    }
    // 2, 3 and 18 come in any order, before 5, which comes before 6 to 8, which come before 9.
    for low in [2, 3, 18] {
        for high in [2, 3, 5, 6, 7, 8, 9, 18].into_iter().filter(|&high| high != low) {
            assert!(decided[low][high] > 5, "{low} before {high}: {decided:?}");
        }
    }
    for high in 6..=9 {
        assert!(decided[5][high] > 5 && decided[high][5] == 0, "{high}: {decided:?}");
        assert!(decided[high][18] == 0 && (high == 9 || decided[high][9] > 5), "{decided:?}");
    }
}

/// Two refusals on one line, or 5 beside another number.
#[test]
fn one_line() {
    let before = |lines: &[&str], number, place| {
        assert_eq!(
            read_network(&text(lines)).err(),
            Some(Refusal::new(number, place)),
            "{lines:?}"
        );
    };
    // 1 before 2, 4 and 5
    before(&["seg 9 65 q"], 1, 1);
    before(&["seg 0 1 s", "out 1", "seg 0 1"], 1, 3);
    before(&["mux 0 0 0 0", "out x"], 1, 2);
    // 4 before 2
    before(&["seg 0 1 s", "out 1", "seg 9 65 s"], 4, 3);
    before(&["seg 0 1 s", "out 1", "out 9"], 4, 3);
    // 4 before 6 and 7
    before(&["seg 0 1 s", "hold 9 0"], 4, 2);
    before(&["seg 0 1 s", "mux 1 0 0 1", "read 1"], 4, 3);
    // 2 before 5, and 5 before what stands on later lines
    before(&["mux 0 0 0 0", "out 9"], 2, 2);
    before(&["mux 0 0 0 0", "out 1", "?"], 5, 1);
    before(&["mux 0 0 0 0", "?", "out 1"], 1, 2);
    // 5 is not tested where `out` is missing
    before(&["mux 0 0 0 0"], 4, 2);
    // the lowest of several wrong multiplexers, on the path or not
    before(&["seg 0 1 p", "mux 1 0 0 0", "mux 9 0 0 0", "out 0"], 5, 2);
    // 6 before 7, 7 before 8, 6 before 8
    before(&["seg 0 2 s", "mux 1 0 0 1", "out 2", "write 1 0"], 6, 4);
    let four = ["seg 0 1 s", "seg 1 1 s", "seg 2 1 s", "mux 1 0 3 3", "out 4"];
    let targets = ["read 2", "read 3", "write 2 0", "write 3 0"];
    for (fifth, number) in [("read 1", 7), ("read 9", 6), ("read 2", 6), ("write 3 00", 6)] {
        before(&[&four[..], &targets, &[fifth]].concat(), number, 10);
    }
    // 8 before 9
    let fifth = ["seg 0 1 s", "seg 1 1 s", "seg 2 1 s", "seg 3 1 s", "mux 4 0 3 3", "out 5"];
    let targets = ["hold 4 X", "read 1", "read 2", "read 3", "write 1 0", "write 2 0"];
    before(&[&fifth[..], &targets].concat(), 8, 12);
}

/// 18 and another refusal on one line or in one text: 1, 4, 2, 18, 3, 5, 6, 7, 8, 9.
#[test]
fn resets_in_order() {
    let before = |lines: &[&str], number, place| {
        assert_eq!(read_network(&text(lines)), refused(number, place), "{lines:?}");
    };
    // 1, 4 and 2 before 18 on one line
    before(&["seg 0 2 q 0"], 1, 1);
    before(&["seg 0 02 s 0"], 1, 1);
    before(&["seg 0 2 s 0x0"], 1, 1);
    before(&["seg 0 2 s 0 0"], 1, 1);
    before(&["out 0", "seg 0 2 s 0"], 4, 2);
    before(&["seg 0 1 s", "out 1", "seg 9 65 s 0"], 4, 3);
    for line in ["seg 1 2 s 0", "seg 9999 2 s 0", "seg 0 0 s 0", "seg 0 65 s 0"] {
        before(&[line, "out 1"], 2, 1);
    }
    // LEN is out of bounds, though RESET is as long
    before(&[&format!("seg 0 65 s {}", "0".repeat(65)), "out 1"], 2, 1);
    // the first line decides
    before(&["seg 0 2 s 0", "?"], 18, 1);
    before(&["?", "seg 0 2 s 0"], 1, 1);
    before(&["seg 0 2 s 0", "hold 1 0"], 18, 1);
    before(&["hold 1 0", "seg 0 2 s 0"], 4, 1);
    before(&["seg 0 2 s 0", "seg 9 1 s"], 18, 1);
    before(&["seg 9 1 s", "seg 0 2 s 0"], 2, 1);
    before(&["seg 0 2 s 0", "seg 0 2 s 000"], 18, 1);
    // a missing `out`, 2 of `out`, and 5, which is tested there
    before(&["seg 0 2 s 0"], 18, 1);
    before(&["seg 0 2 s 0", "out 9"], 18, 1);
    before(&["mux 0 0 0 0", "seg 0 2 s 0", "out 1"], 18, 2);
    // 6, 7 and 8
    before(&["seg 0 2 s 0", "out 1", "hold 1 0"], 18, 1);
    before(&["seg 0 2 s 0", "mux 1 0 0 1", "out 2", "read 1"], 18, 1);
    let reads = ["read 2", "read 3", "read 4", "read 5", "read 6"];
    let nodes = ["seg 0 2 s 000", "seg 1 1 s", "seg 2 1 s", "seg 3 1 s", "seg 4 1 s", "seg 5 1 s"];
    before(&[&nodes[..], &["out 6"], &reads].concat(), 18, 1);
    // 9
    before(&["seg 0 1 s X", "mux 1 0 0 1", "seg 2 2 s 0", "out 3"], 18, 3);
}

/// "Marker: the network's refusals, then all 14, text length first, then 15 and 16 by operation,
/// then 17."
#[test]
fn marker_order() {
    let network = text(&["seg 0 2 s", "mux 1 0 1 1 1", "out 2"]);
    let wrong_start = text(&["seg 0 2 s", "mux 1 0 1 1 1", "out 2", "hold 1 X0"]);
    let too_long = vec![b'\n'; MAX_PLAN_BYTES + 1];
    assert_eq!(mark(&wrong_start, &too_long), refused(9, 2));
    assert_eq!(mark(&network, &too_long), refused(14, 0));
    assert_eq!(mark(&network, &text(&["csu 0", "csu 11", "?"])), refused(14, 3));
    assert_eq!(mark(&network, &text(&["csu 11", "csu 0"])), refused(16, 1));
    assert_eq!(mark(&network, &text(&["csu 0", "csu 11"])), refused(15, 1));
    assert_eq!(mark(&network, &text(&["csu 01", "csu 0"])), refused(15, 2));
    let reads = text(&["seg 0 1 s", "seg 0 2 s", "out 2", "read 1", "write 2 01"]);
    assert_eq!(mark(&reads, &text(&["csu 00", "csu 0"])), refused(15, 2));
    assert_eq!(mark(&reads, &text(&["csu 00"])), refused(17, 1));
    let writes = text(&["seg 0 1 s", "seg 0 2 s", "out 2", "write 2 01", "read 1"]);
    assert_eq!(mark(&writes, &text(&["csu 00"])), refused(17, 1));
    assert_eq!(mark(&writes, &text(&["csu 10"])), refused(17, 2));
}

#[test]
fn plan_faults() {
    let random = &mut Random::new(403);
    let network = text(&["seg 0 2 s", "out 1"]);
    for fault in PLAN_FAULTS {
        for lines in 0..=16 {
            let plan = text(&vec!["csu 01"; lines]);
            let (damaged, refusal) = damage_plan(random, &plan, fault);
            assert_eq!(mark(&network, &damaged), Err(refusal), "{fault:?}");
            // A plan of wrong length is refused with 14 all the same.
            let plan = text(&vec!["csu 0"; lines]);
            let (damaged, refusal) = damage_plan(random, &plan, fault);
            assert_eq!(mark(&network, &damaged), Err(refusal), "{fault:?}");
        }
    }
}

/// "Planner: 10, 12, 11, 13."
#[test]
fn planner_order() {
    let seven = penthluk_reference::generate::large::steered(7).text();
    let none = text(&["seg 0 1 s", "out 0", "read 1"]);
    let plan = text(&["seg 0 1 s", "out 1", "read 1"]);
    let wrong = text(&["seg 0 1 s", "out 2"]);
    let mut short = vec![0; SEARCH_ENTRIES - 1];
    let mut enough = vec![0; SEARCH_ENTRIES];
    assert_eq!(make_plan(&wrong, &mut short, &mut []), refused(2, 2));
    assert_eq!(make_plan(&seven, &mut short, &mut []), refused(10, 7));
    assert_eq!(make_plan(&none, &mut short, &mut []), refused(12, SEARCH_ENTRIES));
    assert_eq!(make_plan(&plan, &mut short, &mut []), refused(12, SEARCH_ENTRIES));
    assert_eq!(make_plan(&none, &mut enough, &mut []), refused(11, 0));
    assert_eq!(make_plan(&plan, &mut enough, &mut []), refused(13, 6));
}
