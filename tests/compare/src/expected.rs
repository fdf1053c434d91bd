//! The plain Rust version's answers as the numbers that the proved calls give.

use penthluk_reference::marker::{Got, Pass};
use penthluk_reference::recover::calls::Progress;
use penthluk_reference::refusal::Refusal;

/// The numbers of a mark.
pub fn mark_numbers(result: &Result<Pass, Refusal>) -> [usize; 16] {
    let mut numbers = match result {
        Ok(pass) => {
            let rows = pass.gots.iter().flat_map(|got| [got.target, got.operation, got.place]);
            let counts = [0, pass.operations, pass.clocks, pass.gots.len()];
            counts.into_iter().chain(rows).collect()
        }
        Err(refusal) => refusal_numbers(refusal).to_vec(),
    };
    numbers.resize(16, 0);
    numbers.try_into().expect("a network has at most four targets")
}

/// The pass that the numbers of a mark stand for, if it is one.
pub fn passed(numbers: &[usize; 16]) -> Option<Pass> {
    let [0, operations, clocks, rows, ..] = *numbers else { return None };
    let row = |row: &[usize]| Got { target: row[0], operation: row[1], place: row[2] };
    Some(Pass { operations, clocks, gots: numbers[4..].chunks(3).take(rows).map(row).collect() })
}

/// The numbers of an answer that is a count: of clocks written, or of the bytes of a plan or of `hold` lines.
pub fn count_numbers(result: &Result<usize, Refusal>) -> [usize; 2] {
    match result {
        Ok(count) => [0, *count],
        Err(refusal) => refusal_numbers(refusal),
    }
}

/// The numbers of what a line of clocks leads to.
pub fn step_numbers(result: &Result<Progress, Refusal>) -> [usize; 5] {
    match result {
        Ok(progress) => {
            let [lines, state, entries, bytes] = progress_numbers(progress);
            [0, lines, state, entries, bytes]
        }
        Err(refusal) => {
            let [number, place] = refusal_numbers(refusal);
            [number, place, 0, 0, 0]
        }
    }
}

pub fn progress_numbers(progress: &Progress) -> [usize; 4] {
    [progress.lines, progress.state, progress.entries, progress.bytes]
}

pub fn refusal_numbers(refusal: &Refusal) -> [usize; 2] {
    [refusal.number as usize, refusal.place]
}
