//! Rows of the calls that bring clocks back into a plan.

use std::hint::black_box;

use penthluk_compare::expected::{count_numbers, progress_numbers};
use penthluk_compare::{recover, recover_end, recover_line_into};
use penthluk_reference::clocks::operation_clocks;
use penthluk_reference::generate::clock_lines::{clk_line, idle_line, LONGEST_LINE};
use penthluk_reference::generate::random::Random;
use penthluk_reference::limits::MAX_PLAN_BYTES;
use penthluk_reference::programs;
use penthluk_reference::recover::calls::{self, Progress};
use penthluk_reference::recover::recover_text;
use penthluk_reference::text::bit_byte;

use super::{compare, longest_plan, Rounds, SHORT};

/// A text that is many lines in itself.
const LONG: Rounds = Rounds { rounds: 7, calls: 1 };

/// The length of a long text, and of one that stays in the cache, as a line does that has just been read.
const BYTES: usize = 64_000_000;
const CACHED: usize = 1_000_000;

/// The clocks of lines of 80, 1,000 and 32,768 bytes.
const CLOCKS: [usize; 3] = [37, 497, LONGEST_LINE];

/// A long text of waiting: lines of so many clocks with TMS 0 and TDI 0 between these bytes.
fn waiting(before: &[u8], clocks: usize, after: &[u8]) -> Vec<u8> {
    [before, &idle_lines(BYTES, clocks), after].concat()
}

/// At most so many bytes of such lines.
fn idle_lines(bytes: usize, clocks: usize) -> Vec<u8> {
    let line = idle_line(clocks);
    line.repeat(bytes / line.len())
}

/// The same in lines of 20 to 60 clocks in no order.
fn waiting_in_any_lines() -> Vec<u8> {
    let mut random = Random::new(2);
    let mut text = Vec::new();
    while text.len() < BYTES {
        text.extend(idle_line(random.between(20, 60)));
    }
    text
}

/// The clocks in lines of so many.
fn in_lines(tms: &[u8], tdi: &[u8], clocks: usize) -> Vec<u8> {
    let pairs = tms.chunks(clocks).zip(tdi.chunks(clocks));
    pairs.flat_map(|(tms, tdi)| clk_line(tms, tdi)).collect()
}

/// The clocks of the longest plan.
fn longest_clocks() -> (Vec<u8>, Vec<u8>) {
    let bits: Vec<bool> = (0..4_000).map(|bit| bit % 3 == 0).collect();
    let (mut tms, mut tdi) = (Vec::new(), Vec::new());
    for clock in (0..16).flat_map(|_| operation_clocks(&bits)) {
        tms.push(bit_byte(clock.tms));
        tdi.push(bit_byte(clock.tdi));
    }
    (tms, tdi)
}

/// Sixteen operations of 4,000 bits as some players send them: eight bits, three clocks in Pause-DR, and
/// on with the next eight.
fn paused_clocks() -> (Vec<u8>, Vec<u8>) {
    let byte = (b"00000001", b"10110100");
    let pause = (b"00010", b"00000");
    let tms = [&[&byte.0[..], pause.0].concat().repeat(499)[..], byte.0].concat();
    let tdi = [&[&byte.1[..], pause.1].concat().repeat(499)[..], byte.1].concat();
    let [tms, tdi] = [(b"100", tms, b"10"), (b"000", tdi, b"00")]
        .map(|(before, bits, after)| [&before[..], &bits, after].concat().repeat(16));
    (tms, tdi)
}

/// One call for a whole text.
fn whole(name: &str, text: &[u8], rounds: Rounds) {
    let [mut plan, mut plain_plan] = [(); 2].map(|_| vec![0; MAX_PLAN_BYTES]);
    let numbers = recover(text, &mut plan);
    assert_eq!(numbers, count_numbers(&recover_text(text, &mut plain_plan)));
    assert!(numbers[0] == 0 && plan == plain_plan, "{name}");
    let proved = || _ = black_box(recover(black_box(text), &mut plan));
    let plain = || _ = black_box(recover_text(black_box(text), &mut plain_plan));
    compare(name, text.len(), rounds, proved, plain);
}

/// The lines through the proved call; each is to be accepted. Behind its 0 an answer is the next progress.
fn proved_lines(lines: &[&[u8]], plan: &mut [u8]) -> [usize; 2] {
    let [lines_so_far, state, entries, bytes] = progress_numbers(&Progress::default());
    let (mut answer, mut next) = (&mut [0, lines_so_far, state, entries, bytes], &mut [0; 5]);
    for line in lines {
        recover_line_into(progress_in(answer), line, plan, next);
        assert_eq!(next[0], 0);
        (answer, next) = (next, answer);
    }
    recover_end(progress_in(answer), b"")
}

/// The progress of an answer.
fn progress_in(answer: &[usize; 5]) -> &[usize; 4] {
    answer.last_chunk().expect("four of five")
}

/// The same through the plain call.
fn plain_lines(lines: &[&[u8]], plan: &mut [u8]) -> [usize; 2] {
    let mut progress = Progress::default();
    for line in lines {
        progress = calls::recover_line(&progress, line, plan).expect("a good line");
    }
    count_numbers(&calls::recover_end(&progress, b""))
}

/// One call for each line, and one for the end. The lines are found before.
fn by_line(name: &str, text: &[u8], rounds: Rounds) {
    let lines: Vec<&[u8]> =
        text.strip_suffix(b"\n").expect("a line end").split(|&b| b == b'\n').collect();
    let [mut plan, mut plain_plan] = [(); 2].map(|_| vec![0; MAX_PLAN_BYTES]);
    let numbers = proved_lines(&lines, &mut plan);
    assert_eq!(numbers, plain_lines(&lines, &mut plain_plan));
    assert!(numbers[0] == 0 && plan == plain_plan, "{name}");
    let proved = || _ = black_box(proved_lines(black_box(&lines), &mut plan));
    let plain = || _ = black_box(plain_lines(black_box(&lines), &mut plain_plan));
    compare(name, text.len(), rounds, proved, plain);
}

pub fn recoverings() {
    for clocks in CLOCKS {
        let bytes = 2 * clocks + 6;
        let (long, short) = (idle_lines(BYTES, clocks), idle_lines(CACHED, clocks));
        whole(&format!("recover, waiting in Run-Test/Idle, lines of {bytes} bytes"), &long, LONG);
        by_line(&format!("recover_line, waiting in Run-Test/Idle, {bytes} bytes"), &short, SHORT);
    }
    let pause = waiting(b"clk\t10010\t00010\n", 37, b"clk\t110\t000\n");
    whole("recover, waiting in Pause-DR, lines of 80 bytes", &pause, LONG);
    whole("recover, waiting, lines of one clock", &waiting(b"", 1, b""), LONG);
    whole("recover, waiting, lines of 20 to 60 clocks", &waiting_in_any_lines(), LONG);
    whole("recover, 16 operations of 4,000 bits", &programs::clock(&longest_plan()), SHORT);
    let ((tms, tdi), (paused_tms, paused_tdi)) = (longest_clocks(), paused_clocks());
    for (name, text) in [
        ("16 operations of 4,000 bits, lines of 80 bytes", in_lines(&tms, &tdi, 37)),
        ("the same, a pause after each 8 bits", in_lines(&paused_tms, &paused_tdi, 37)),
        ("the same in the longest lines", in_lines(&paused_tms, &paused_tdi, LONGEST_LINE)),
    ] {
        whole(&format!("recover, {name}"), &text, SHORT);
        by_line(&format!("recover_line, {name}"), &text, SHORT);
    }
}
