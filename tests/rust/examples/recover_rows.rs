//! Writes the antt modules that say what the definitions of the crate `model` must give for generated
//! texts of clocks into a folder: `recover_rows FOLDER MODULES`, so many modules and one of the longest
//! lines. Fails if the rows lose a form. The script tests/definitions has the modules checked.

mod antt_text;

use std::collections::BTreeMap;
use std::path::Path;

use antt_text::{lent, quoted, result};
use penthluk_reference::generate::clock_forms::clock_forms;
use penthluk_reference::generate::clock_lines::{idle_line, LONGEST_LINE};
use penthluk_reference::generate::clock_texts::{clock_random, clock_text};
use penthluk_reference::generate::random::Random;
use penthluk_reference::limits::MAX_CLOCK_LINE_BYTES;
use penthluk_reference::programs;
use penthluk_reference::recover::calls::{recover_end, recover_line, recover_part, Progress};
use penthluk_reference::recover::{recover, recover_text};
use penthluk_reference::refusal::{Refusal, CLOCK_LINE};

/// The longest text.
const MAX_TEXT: usize = 600;
/// The texts of a module, each with a row of every definition.
const TEXTS: usize = 24;
/// Lines behind a progress that no line leaves, or one at a limit, in a module.
const ODD: usize = 20;
/// The least counts hold for so many modules and more.
const MODULES: usize = 12;

/// How many texts of twelve modules at least have each form.
const LEAST: [(&str, usize); 28] = [
    ("accepted", 110),
    ("empty text", 4),
    ("idle stretch", 35),
    ("wait in Pause-DR", 28),
    ("shifting on after Exit2-DR", 32),
    ("Exit2-DR to Update-DR", 30),
    ("Update-DR to Select-DR", 26),
    ("TDI 1 outside Shift-DR", 45),
    ("passage without bits", 26),
    ("passage without bits, with a pause", 7),
    ("pause before the first bit", 26),
    ("two pauses in a passage", 20),
    ("passage over several lines", 20),
    ("several passages in a line", 22),
    ("a clock a line", 4),
    ("16 entries", 2),
    ("NUL", 4),
    ("byte above 127", 8),
    ("CR", 3),
    ("empty line", 5),
    ("refused: last line unended", 4),
    ("refused: form", 55),
    ("refused: empty field", 9),
    ("refused: unequal lengths", 12),
    ("refused: entry to Select-IR", 3),
    ("refused: seventeenth entry", 4),
    ("refused: end outside Run-Test/Idle", 4),
    ("refused within a passage", 25),
];

fn main() {
    let arguments: Vec<String> = std::env::args().skip(1).collect();
    let [folder, modules] = arguments.as_slice() else {
        eprintln!("usage: recover_rows FOLDER MODULES");
        std::process::exit(2);
    };
    let modules: usize = modules.parse().expect("MODULES");
    let write = |name: &str, rows: Vec<String>| {
        let text = format!("{HEAD}    {}\n    ∷ []\n{TAIL}", rows.join("\n    ∷ "));
        std::fs::write(Path::new(folder).join(format!("{name}.antt")), text).expect("FOLDER");
    };
    let mut counts = BTreeMap::new();
    for module in 1..=modules {
        write(&format!("Clocks{module}"), draw_rows(module as u64 * 1_000, &mut counts));
    }
    write("ClockLimits", limit_rows());
    for (form, least) in LEAST {
        let count = counts.get(form).copied().unwrap_or(0);
        assert!(count >= least || modules < MODULES, "{form}: {count} times, {counts:#?}");
    }
}

/// The rows of a module. Counts the forms of its texts.
fn draw_rows(seed: u64, counts: &mut BTreeMap<&str, usize>) -> Vec<String> {
    let random = &mut clock_random(seed);
    let texts = (seed..).map(|seed| clock_text(seed).text).filter(|text| text.len() <= MAX_TEXT);
    let mut rows = Vec::new();
    for text in texts.take(TEXTS) {
        clock_forms(&text).into_iter().for_each(|form| *counts.entry(form).or_default() += 1);
        rows.push(program_row(&text));
        rows.push(text_row(random, &text));
        rows.extend(part_rows(random, &text));
        rows.push(cut_row(random, &text));
    }
    rows.extend((0..ODD).flat_map(|_| odd_rows(random)));
    rows
}

/// What the program prints.
fn program_row(text: &[u8]) -> String {
    let printed = quoted(&programs::recover(text));
    format!("row (program {}) (prints {printed})", quoted(text))
}

/// The call for a whole text, with a buffer of about the length that is needed.
fn text_row(random: &mut Random, text: &[u8]) -> String {
    let needed = recover(text).map_or(5, |plan| plan.len());
    let mut plan = lent((needed + random.below(4)).saturating_sub(random.below(3)));
    let asked = format!("text {} {}", quoted(text), quoted(&plan));
    let result = result(recover_text(text, &mut plan), |count| count.to_string());
    format!("row ({asked}) (counts {result} {})", quoted(&plan))
}

/// A text in two parts, the line at which the first ends, and the end.
fn part_rows(random: &mut Random, text: &[u8]) -> Vec<String> {
    let (first, second) = text.split_at(random.below(text.len() + 1));
    let needed = recover(text).map_or(40, |plan| plan.len());
    let mut plan = lent((needed + 2).saturating_sub(random.below(5)));
    let (row, after) = part_row(Ok(Progress::default()), first, &mut plan);
    let mut rows = vec![row];
    let Ok((progress, rest)) = after else {
        rows.push(part_row(after.map(|(progress, _)| progress), second, &mut plan).0);
        return rows;
    };
    let behind = [rest, second].concat();
    let line = behind.split(|&byte| byte == b'\n').next().unwrap_or_default();
    rows.push(line_row(&progress, line, &mut plan.clone()));
    let (row, after) = part_row(Ok(progress), &behind, &mut plan);
    rows.push(row);
    let (last, rest) = after.unwrap_or((progress, rest));
    rows.push(end_row(&last, rest));
    rows
}

/// What is printed of a text in three parts. The shortest passage has four clocks and five bytes of plan,
/// and each clock has two bytes of text, so that the buffer is long enough.
fn cut_row(random: &mut Random, text: &[u8]) -> String {
    let (first, behind) = text.split_at(random.below(text.len() + 1));
    let (second, third) = behind.split_at(random.below(behind.len() + 1));
    let parts = [first, second, third].map(quoted).join(" ∷ ");
    let printed = quoted(&programs::recover(text));
    format!("row (cut ({parts} ∷ []) {}) (prints {printed})", quoted(&lent(text.len() + 10)))
}

/// A progress and what stands behind the last line end.
type Kept<'t> = Result<(Progress, &'t [u8]), Refusal>;

/// A part of a text behind this progress or refusal.
fn part_row<'t>(
    before: Result<Progress, Refusal>,
    text: &'t [u8],
    plan: &mut [u8],
) -> (String, Kept<'t>) {
    let progress = |before| result(before, |progress| at(&progress));
    let asked = format!("part {} {} {}", progress(before), quoted(text), quoted(plan));
    let after = before.and_then(|before| recover_part(&before, text, plan));
    let rest = quoted(after.map_or(b"", |(_, rest)| rest));
    let after_text = progress(after.map(|(progress, _)| progress));
    (format!("row ({asked}) (follows {after_text} {} {rest})", quoted(plan)), after)
}

/// A line behind this progress.
fn line_row(progress: &Progress, line: &[u8], plan: &mut [u8]) -> String {
    let asked = format!("line {} {} {}", at(progress), quoted(line), quoted(plan));
    let result = result(recover_line(progress, line, plan), |progress| at(&progress));
    format!("row ({asked}) (follows {result} {} \"\")", quoted(plan))
}

/// The end behind this progress.
fn end_row(progress: &Progress, rest: &[u8]) -> String {
    let result = result(recover_end(progress, rest), |count| count.to_string());
    format!("row (end {} {}) (counts {result} \"\")", at(progress), quoted(rest))
}

/// A line and the end behind any progress.
fn odd_rows(random: &mut Random) -> [String; 2] {
    let most = usize::MAX;
    let progress = Progress {
        lines: *random.pick(&[0, 3, 70_000, most - 1, most]),
        state: *random.pick(&[0, 1, 1, 2, 3, 4, 4, 4, 5, 6, 7, 8, 8, 9, 15, 16, most]),
        entries: *random.pick(&[0, 1, 2, 14, 15, 15, 16, 16, 17, most]),
        bytes: *random.pick(&[0, 1, 4, 5, 9, 12, 12, 20, 64_075, 64_076, 64_079, 64_080, 64_081]),
    };
    let line = *random.pick(&[
        &b"clk\t0\t1"[..],
        b"clk\t1\t0",
        b"clk\t01\t10",
        b"clk\t1110\t0000",
        b"clk\t00000\t10110",
        b"clk\t0110100011\t1011001011",
        b"clk\t0\t00",
    ]);
    let mut plan = lent(if random.percent(70) { 40 } else { random.below(20) });
    let rest = *random.pick(&[&b""[..], b"", b"", b"c", b"clk\t0\t0"]);
    [line_row(&progress, line, &mut plan), end_row(&progress, rest)]
}

/// The longest line, one that is longer, and the rest of one whose end has not come.
fn limit_rows() -> Vec<String> {
    let progress = Progress { lines: 8, ..Progress::default() };
    let line = |clocks: usize| line_row(&progress, idle_line(clocks).trim_ascii_end(), &mut []);
    let rest = vec![b'0'; MAX_CLOCK_LINE_BYTES];
    let text = [&b"clk\t0\t0\n"[..], &rest].concat();
    let (rest_row, after) = part_row(Ok(progress), &text, &mut []);
    assert_eq!(after, Err(Refusal::new(CLOCK_LINE, 10)));
    vec![line(LONGEST_LINE), line(LONGEST_LINE + 1), rest_row]
}

fn at(progress: &Progress) -> String {
    let Progress { lines, state, entries, bytes } = progress;
    format!("(at {lines} {state} {entries} {bytes})")
}

const HEAD: &str = include_str!("recover_rows_head.txt");
const TAIL: &str = include_str!("recover_rows_tail.txt");
