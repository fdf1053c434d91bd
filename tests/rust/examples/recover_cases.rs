//! Writes texts of clocks and what the Rust version recovers from them into a folder: `recover_cases
//! FOLDER SEED COUNT`, COUNT generated texts from SEED on, one for each fault, and those at the limits.
//! For NAME.clocks the program `recover` must print NAME.recovered. The script tests/programs runs the
//! built program on them.

use std::path::Path;

use penthluk_reference::generate::clock_faults::{damaged_clocks, CLOCK_FAULTS};
use penthluk_reference::generate::clock_lines::{
    clk_line, idle_line, ClockLines, Cut, LONGEST_LINE,
};
use penthluk_reference::generate::clock_texts::{clock_random, clock_text};
use penthluk_reference::generate::clock_walk::{walk_of, Style, PLAIN};
use penthluk_reference::generate::random::Random;
use penthluk_reference::limits::{MAX_OPERATIONS, MAX_PLAN_BYTES};
use penthluk_reference::programs;

/// A text and what `recover` prints for it.
struct Case {
    name: String,
    clocks: Vec<u8>,
    recovered: Vec<u8>,
}

impl Case {
    fn new(name: impl Into<String>, clocks: Vec<u8>) -> Case {
        Case { name: name.into(), recovered: programs::recover(&clocks), clocks }
    }

    fn write(&self, folder: &Path) {
        let write = |ending: &str, bytes: &[u8]| {
            let file = folder.join(format!("{}.{ending}", self.name));
            std::fs::write(&file, bytes).unwrap_or_else(|error| panic!("{file:?}: {error}"));
        };
        write("clocks", &self.clocks);
        write("recovered", &self.recovered);
    }
}

fn main() {
    let arguments: Vec<String> = std::env::args().skip(1).collect();
    let [folder, seed, count] = arguments.as_slice() else {
        eprintln!("usage: recover_cases FOLDER SEED COUNT");
        std::process::exit(2);
    };
    let (seed, count): (u64, u64) = (seed.parse().expect("SEED"), count.parse().expect("COUNT"));
    let random = &mut clock_random(seed);
    let generated = |seed| Case::new(format!("seed-clocks-{seed}"), clock_text(seed).text);
    let mut cases: Vec<Case> = (seed..seed + count).map(generated).collect();
    let faulty =
        |fault| Case::new(format!("clock-fault-{fault:?}"), damaged_clocks(random, &[fault]).0);
    cases.extend(CLOCK_FAULTS.map(faulty));
    cases.extend(line_limits());
    cases.extend(plan_limits(random));
    cases.extend(long_texts(random));
    assert_covered(&cases);
    cases.iter().for_each(|case| case.write(Path::new(folder)));
}

/// Lines as long as may be and longer.
fn line_limits() -> Vec<Case> {
    let unequal = |tms: usize, tdi: usize| clk_line(&vec![b'0'; tms], &vec![b'0'; tdi]);
    vec![
        Case::new("clocks-empty", Vec::new()),
        Case::new("clocks-longest-line", idle_line(LONGEST_LINE)),
        Case::new("clocks-longest-lines", idle_line(LONGEST_LINE).repeat(5)),
        Case::new("clocks-longer-line", [idle_line(9), idle_line(LONGEST_LINE + 1)].concat()),
        Case::new("clocks-32767-bytes", unequal(LONGEST_LINE, LONGEST_LINE - 1)),
        Case::new("clocks-32769-bytes", unequal(LONGEST_LINE, LONGEST_LINE + 1)),
        Case::new("clocks-long-field", unequal(1, 200_000)),
        Case::new("clocks-no-line-end", vec![b'0'; 3_000_000]),
        Case::new("clocks-line-ends", vec![b'\n'; 100_000]),
        Case::new("clocks-binary", (0..100_000).map(|index| (index % 256) as u8).collect()),
    ]
}

/// Passages of so many bits each, cut into lines.
fn passages(random: &mut Random, style: Style, lengths: Vec<usize>, cut: Cut) -> Vec<u8> {
    let operation = |bits: usize| (0..bits).map(|_| random.bit()).collect();
    let operations = lengths.into_iter().map(operation).collect();
    let walk = walk_of(random, style, operations);
    ClockLines::new(random, &walk, cut).lines.concat()
}

/// As many passages and bytes of plan as may be, and more.
fn plan_limits(random: &mut Random) -> Vec<Case> {
    let each = MAX_PLAN_BYTES / MAX_OPERATIONS - 5;
    let all = vec![each; MAX_OPERATIONS];
    let more = [&all[1..], &[each + 1]].concat();
    let one = MAX_PLAN_BYTES - 5;
    let paused = Style { idle: 100, pause: 90, straight: 50, ones: 50, wait: 300 };
    let mut case = |name: &str, style, lengths: &[usize], cut| {
        Case::new(name, passages(random, style, lengths.to_vec(), cut))
    };
    vec![
        case("clocks-longest-plan", PLAIN, &all, Cut::Passages),
        case("clocks-longest-plan-few-lines", PLAIN, &all, Cut::Long),
        case("clocks-longest-plan-one-clock", PLAIN, &all, Cut::Clocks),
        case("clocks-longest-plan-paused", paused, &all, Cut::Upto(70)),
        case("clocks-longer-plan", PLAIN, &more, Cut::Passages),
        case("clocks-longer-plan-paused", paused, &more, Cut::Upto(70)),
        case("clocks-one-passage", paused, &[one], Cut::Long),
        case("clocks-one-longer-passage", paused, &[one + 1], Cut::Long),
        case("clocks-16-entries", paused, &[0; MAX_OPERATIONS], Cut::Upto(9)),
        case("clocks-17-entries", paused, &[0; MAX_OPERATIONS + 1], Cut::Upto(9)),
    ]
}

/// A text may be of any length: waiting for a long time, and a refusal far behind.
fn long_texts(random: &mut Random) -> Vec<Case> {
    let short = idle_line(1).repeat(150_000);
    let waiting = Style { idle: 100, pause: 100, straight: 0, ones: 50, wait: 120_000 };
    let passage = passages(random, PLAIN, vec![40], Cut::Passages);
    vec![
        Case::new("clocks-short-lines", [&short[..], &passage].concat()),
        Case::new("clocks-refused-late", [&short[..], b"clk\t0\t2\n", &passage].concat()),
        Case::new("clocks-end-late", [&passage[..], &short, b"clk\t1\t0\n"].concat()),
        Case::new("clocks-waiting", passages(random, waiting, vec![9; 8], Cut::Upto(120))),
        Case::new("clocks-waiting-long-lines", passages(random, waiting, vec![9; 8], Cut::Long)),
    ]
}

/// Every refusal's reason has a case by its fault; the longest plan, long texts with an answer, and
/// refusals at the first line and far behind are there.
fn assert_covered(cases: &[Case]) {
    let has = |test: &dyn Fn(&Case) -> bool| cases.iter().any(test);
    let printed = |text: &str| has(&|case: &Case| case.recovered == text.as_bytes());
    assert!(has(&|case| case.clocks.is_empty() && case.recovered.is_empty()));
    assert!(has(&|case| case.recovered.len() == MAX_PLAN_BYTES));
    let plan = |case: &Case| case.recovered.starts_with(b"csu\t");
    assert!(has(&|case| plan(case) && case.clocks.len() > 1_000_000));
    assert!(printed("fail\t19\t1\n") && printed("fail\t19\t150001\n"));
    assert!(printed("fail\t19\t16\n") && printed("fail\t19\t150002\n"));
    let lines = |case: &Case| case.recovered.iter().filter(|&&byte| byte == b'\n').count();
    assert!(has(&|case| lines(case) == MAX_OPERATIONS && case.clocks.len() > 300_000));
    let ok = |case: &&Case| !case.recovered.starts_with(b"fail");
    let accepted = cases.iter().filter(ok).count();
    assert!(accepted * 3 > cases.len() && accepted * 3 < cases.len() * 2, "{accepted}");
}
