//! What a record did on the test frame, the recovered plan does: with the same start, the same shift
//! bits and the same captures in turn, the clocks written for the plan end with the same registers and
//! show the same bits.

mod common;

use common::accepted;
use penthluk_reference::clocks::{plan_clocks, Clock};
use penthluk_reference::controller::State;
use penthluk_reference::frame::{any_shift, Frame};
use penthluk_reference::generate::cases::draw_network;
use penthluk_reference::generate::clock_lines::{ClockLines, Cut};
use penthluk_reference::generate::clock_texts::clock_text;
use penthluk_reference::generate::clock_walk::{draw_style, walk_of};
use penthluk_reference::generate::followed::follow_text;
use penthluk_reference::generate::plans::wander;
use penthluk_reference::generate::random::Random;
use penthluk_reference::generate::tiny::tiny;
use penthluk_reference::network::{Configuration, Network};
use penthluk_reference::plan_text::{parse_plan, plan_lines};
use penthluk_reference::recover::recover;

/// A frame's first bits, and the bits fed at each clock in Capture-DR.
struct Start {
    held: Configuration,
    shift: Configuration,
    captures: Vec<Vec<bool>>,
}

fn draw_start(random: &mut Random, network: &Network, passages: usize) -> Start {
    let mut held = network.start.clone();
    for bit in held.iter_mut().flatten() {
        *bit = Some(bit.unwrap_or_else(|| random.bit()));
    }
    let shift = any_shift(network, &mut || random.bit());
    let mut bits = || (0..network.bits()).map(|_| random.bit()).collect();
    Start { held, shift, captures: (0..passages).map(|_| bits()).collect() }
}

/// What a list of clocks leaves and shows.
#[derive(Debug, PartialEq, Eq)]
struct Played {
    state: State,
    held: Configuration,
    shift: Configuration,
    shown: Vec<bool>,
}

fn play(network: &Network, start: &Start, clocks: impl Iterator<Item = Clock>) -> Played {
    let (held, shift) = (start.held.clone(), start.shift.clone());
    let mut frame = Frame::resumed(network, State::RunTestIdle, held, shift);
    let mut captures = start.captures.iter();
    let mut shown = Vec::new();
    for Clock { tms, tdi } in clocks {
        let capture = (frame.state() == State::CaptureDr).then(|| captures.next().expect("one"));
        let mut fed = capture.into_iter().flatten();
        shown.extend(frame.clock(tms, tdi, &mut |_, _| *fed.next().expect("a bit for each place")));
    }
    let (held, shift) = (frame.setting().clone(), frame.shift().clone());
    Played { state: frame.state(), held, shift, shown }
}

/// Plays the record and the clocks of its plan. Gives what they leave, and whether anything changed.
fn compare(random: &mut Random, network: &Network, text: &[u8]) -> (Played, bool) {
    let plan = recover(text).expect("a plan");
    let operations = parse_plan(&plan).expect("a plan of good form");
    let start = draw_start(random, network, operations.len());
    let recorded = follow_text(text).clocks.into_iter().map(|at| at.clock);
    let [recorded, written] =
        [play(network, &start, recorded), play(network, &start, plan_clocks(&operations))];
    assert_eq!(recorded, written, "{}", String::from_utf8_lossy(text));
    assert_eq!(recorded.state, State::RunTestIdle);
    let changed = recorded.held != start.held;
    (recorded, changed)
}

/// Records of any clocks, whatever the path's length is.
#[test]
fn any_records() {
    let random = &mut Random::new(931);
    let (mut changes, mut shows, mut records) = (0, 0, 0);
    for seed in 0..12_000 {
        let text = clock_text(seed).text;
        if text.len() > 5_000 || recover(&text).is_err() {
            continue;
        }
        let (_, network) = accepted(random, |random| tiny(random, 9).text());
        let (played, changed) = compare(random, &network, &text);
        changes += usize::from(changed);
        shows += played.shown.len();
        records += 1;
    }
    assert!(records > 4_000 && changes > 2_000 && shows > 40_000, "{records}, {changes}, {shows}");
}

/// Plans for the network, played with waiting and pauses.
#[test]
fn played_plans() {
    let random = &mut Random::new(932);
    let mut changes = 0;
    for _ in 0..1_500 {
        let (_, network) = accepted(random, |random| draw_network(random).text());
        let count = random.below(9);
        let operations = wander(random, &network, count, 50);
        let lengths: Vec<usize> = operations.iter().map(Vec::len).collect();
        let style = draw_style(random);
        let walk = walk_of(random, style, operations);
        let text = ClockLines::new(random, &walk, Cut::Upto(100)).lines.concat();
        let plan = recover(&text).expect("a plan");
        let given = plan_lines(&plan).expect("a plan of good form");
        assert!(given.iter().map(|bits| bits.len()).eq(lengths));
        changes += usize::from(compare(random, &network, &text).1);
    }
    assert!(changes > 600, "{changes}");
}
