//! The content of all lent memory after each call.

mod common;

use common::{accepted, lengths, overwritten, pattern, refused, text};
use penthluk_reference::clocks::write_clocks;
use penthluk_reference::generate::cases::{case, draw_network, draw_plan};
use penthluk_reference::generate::random::Random;
use penthluk_reference::generate::reset_cases::reset_case;
use penthluk_reference::generate::{large::steered, maze::gray};
use penthluk_reference::limits::{MAX_PLAN_BYTES, SEARCH_ENTRIES};
use penthluk_reference::plan_text::write_plan;
use penthluk_reference::planner::make_plan;
use penthluk_reference::refusal::{Refusal, NO_PLAN};

fn search_pattern(entries: usize) -> Vec<u16> {
    (0..entries).map(|index| 1 + (index % 60_013) as u16).collect()
}

/// The search space past check 12.
fn cleared(entries: usize) -> Vec<u16> {
    let mut search = search_pattern(entries);
    search[..SEARCH_ENTRIES].fill(0);
    search
}

/// Calls the clock writer with all pairs of lengths. "Output buffers change only on success, in
/// the bytes needed."
fn check_clock_buffers(plan_text: &[u8]) {
    let (mut full_tms, mut full_tdi) = (vec![0; MAX_PLAN_BYTES], vec![0; MAX_PLAN_BYTES]);
    let result = write_clocks(plan_text, &mut full_tms, &mut full_tdi);
    let needed = *result.as_ref().unwrap_or(&plan_text.len());
    for tms_length in lengths(needed) {
        for tdi_length in lengths(needed) {
            let (mut tms, mut tdi) = (pattern(tms_length), pattern(tdi_length));
            let returned = write_clocks(plan_text, &mut tms, &mut tdi);
            let written = match result {
                Err(refusal) => {
                    assert_eq!(returned, Err(refusal));
                    0
                }
                Ok(needed) if tms_length < needed || tdi_length < needed => {
                    assert_eq!(returned, refused(13, needed));
                    0
                }
                Ok(needed) => {
                    assert_eq!(returned, Ok(needed));
                    needed
                }
            };
            assert_eq!(tms, overwritten(tms_length, &full_tms[..written]));
            assert_eq!(tdi, overwritten(tdi_length, &full_tdi[..written]));
        }
    }
}

#[test]
fn clock_buffers() {
    let random = &mut Random::new(501);
    check_clock_buffers(b"");
    check_clock_buffers(&text(&["csu "]));
    for _ in 0..100 {
        let (_, network) = accepted(random, |random| draw_network(random).text());
        check_clock_buffers(&write_plan(&draw_plan(random, &network)));
    }
    for seed in 0..100 {
        check_clock_buffers(&case(seed).plan);
    }
}

/// Calls the planner with several lengths of both buffers.
fn check_plan_buffers(network_text: &[u8]) {
    let mut full_plan = vec![0; MAX_PLAN_BYTES];
    let result = make_plan(network_text, &mut [0; SEARCH_ENTRIES], &mut full_plan);
    let needed = *result.as_ref().unwrap_or(&20);
    for entries in [0, SEARCH_ENTRIES - 1, SEARCH_ENTRIES, SEARCH_ENTRIES + 700] {
        for length in lengths(needed) {
            let (mut search, mut plan) = (search_pattern(entries), pattern(length));
            let returned = make_plan(network_text, &mut search, &mut plan);
            let expected = expected_result(result, entries, length);
            assert_eq!(returned, expected);
            let written = expected.unwrap_or(0);
            assert_eq!(plan, overwritten(length, &full_plan[..written]));
            assert_eq!(
                search,
                if past_check_12(expected) { cleared(entries) } else { search_pattern(entries) }
            );
        }
    }
}

/// The result with these lengths, if `result` is that with enough of both.
fn expected_result(
    result: Result<usize, Refusal>,
    entries: usize,
    length: usize,
) -> Result<usize, Refusal> {
    match result {
        Err(refusal) if refusal.number != NO_PLAN => result,
        _ if entries < SEARCH_ENTRIES => refused(12, SEARCH_ENTRIES),
        Ok(needed) if length < needed => refused(13, needed),
        _ => result,
    }
}

/// "Past check 12 the first 11,664 search entries end as 0; others never change."
fn past_check_12(result: Result<usize, Refusal>) -> bool {
    result.map_or_else(|refusal| [11, 13].contains(&refusal.number), |_| true)
}

#[test]
fn plan_buffers() {
    let random = &mut Random::new(502);
    check_plan_buffers(b"");
    check_plan_buffers(&text(&["out 0"]));
    check_plan_buffers(&steered(6).text());
    check_plan_buffers(&steered(7).text());
    check_plan_buffers(&gray(16, Some("110"), &[32]).text());
    check_plan_buffers(&gray(17, Some("110"), &[32]).text());
    for _ in 0..150 {
        check_plan_buffers(&draw_network(random).text());
    }
    for seed in 0..100 {
        check_plan_buffers(&case(seed).network);
        check_plan_buffers(&reset_case(seed).network);
    }
}
