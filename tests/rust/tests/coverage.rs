//! The generated cases hit every refusal, and the programs print what the calls return.

use penthluk_reference::clocks::write_clocks;
use penthluk_reference::generate::cases::{case, Case};
use penthluk_reference::generate::long_cases::long_case;
use penthluk_reference::generate::reset_cases::reset_case;
use penthluk_reference::limits::{MAX_PLAN_BYTES, SEARCH_ENTRIES};
use penthluk_reference::marker::mark;
use penthluk_reference::planner::make_plan;
use penthluk_reference::programs;
use penthluk_reference::reader::read_network;
use penthluk_reference::refusal::Refusal;

const CASES: u64 = 12_000;

/// How often each number came; index 0 is success.
type Counts = [usize; 19];

fn note<T>(counts: &mut Counts, result: Result<T, Refusal>) {
    counts[result.err().map_or(0, |refusal| refusal.number as usize)] += 1;
}

/// What the four calls return with the lent memory of the case.
fn run(case: &Case, counts: &mut [Counts; 4]) {
    let mut search = vec![7; case.search];
    let mut plan = vec![7; case.plan_room];
    let mut tms = vec![7; case.tms_room];
    let mut tdi = vec![7; case.tdi_room];
    note(&mut counts[0], read_network(&case.network));
    note(&mut counts[1], make_plan(&case.network, &mut search, &mut plan));
    note(&mut counts[2], mark(&case.network, &case.plan));
    note(&mut counts[3], write_clocks(&case.plan, &mut tms, &mut tdi));
}

/// Every number of a network comes, those in `more` too, and every number of the programs.
fn check_counts(draw: fn(u64) -> Case, more: &[usize]) {
    let mut counts = [[0; 19]; 4];
    for seed in 0..CASES {
        run(&draw(seed), &mut counts);
    }
    let [reader, planner, marker, clock_writer] = counts;
    let least = CASES as usize / 1_000;
    let enough = |counts: &Counts, numbers: &[usize]| {
        assert!(numbers.iter().all(|&number| counts[number] >= least), "{counts:?}");
        let others = (0..19).filter(|number| !numbers.contains(number));
        assert!(others.into_iter().all(|number| counts[number] == 0), "{counts:?}");
    };
    let network = [&[0, 1, 2, 3, 4, 5, 6, 7, 8, 9], more].concat();
    enough(&reader, &network);
    enough(&planner, &[&network[..], &[10, 11, 12, 13]].concat());
    enough(&marker, &[&network[..], &[14, 15, 16, 17]].concat());
    enough(&clock_writer, &[0, 13, 14]);
}

#[test]
fn every_refusal_comes() {
    check_counts(case, &[]);
}

#[test]
fn every_refusal_comes_with_resets() {
    check_counts(reset_case, &[18]);
}

#[test]
fn every_refusal_comes_with_long_registers() {
    check_counts(long_case, &[18]);
}

/// A seed always gives the same case.
#[test]
fn cases_repeat() {
    for seed in 0..200 {
        for draw in [case, reset_case, long_case] {
            let (first, second) = (draw(seed), draw(seed));
            assert_eq!((first.network, first.plan), (second.network, second.plan));
        }
    }
}

fn fail_line(refusal: Refusal) -> Vec<u8> {
    format!("fail\t{}\t{}\n", refusal.number, refusal.place).into_bytes()
}

/// With memory of the full sizes the programs print what the calls return.
#[test]
fn programs_agree_with_calls() {
    let mut search = vec![0; SEARCH_ENTRIES];
    let mut plan = vec![0; MAX_PLAN_BYTES];
    for case in (0..2_000).flat_map(|seed| [case(seed), reset_case(seed), long_case(seed)]) {
        let read = programs::read(&case.network);
        match read_network(&case.network) {
            Ok(network) => {
                let nodes = format!("ok\t{}\t{}\t", network.nodes.len(), network.bits());
                assert!(read.starts_with(nodes.as_bytes()));
            }
            Err(refusal) => assert_eq!(read, fail_line(refusal)),
        }
        let planned = make_plan(&case.network, &mut search, &mut plan);
        let expected = planned.map(|bytes| plan[..bytes].to_vec()).unwrap_or_else(fail_line);
        assert_eq!(programs::plan(&case.network), expected);
        match mark(&case.network, &case.plan) {
            Ok(pass) => {
                let printed = programs::mark(&case.network, &case.plan);
                let first = format!("pass\t{}\t{}\n", pass.operations, pass.clocks);
                assert!(printed.starts_with(first.as_bytes()));
                let lines = printed.iter().filter(|&&byte| byte == b'\n').count();
                assert_eq!(lines, 1 + pass.gots.len());
            }
            Err(refusal) => {
                assert_eq!(programs::mark(&case.network, &case.plan), fail_line(refusal))
            }
        }
    }
}

/// The clock program's lines, joined, are what the clock writer writes.
#[test]
fn clock_lines_join() {
    let (mut tms, mut tdi) = (vec![0; MAX_PLAN_BYTES], vec![0; MAX_PLAN_BYTES]);
    for seed in 0..2_000 {
        let plan = case(seed).plan;
        let printed = programs::clock(&plan);
        match write_clocks(&plan, &mut tms, &mut tdi) {
            Err(refusal) => assert_eq!(printed, fail_line(refusal)),
            Ok(clocks) => {
                let (mut joined_tms, mut joined_tdi) = (Vec::new(), Vec::new());
                for line in printed.split_inclusive(|&byte| byte == b'\n') {
                    let fields: Vec<&[u8]> =
                        line[..line.len() - 1].split(|&b| b == b'\t').collect();
                    assert_eq!((fields.len(), fields[0]), (3, &b"clk"[..]));
                    joined_tms.extend_from_slice(fields[1]);
                    joined_tdi.extend_from_slice(fields[2]);
                }
                assert_eq!(joined_tms, tms[..clocks]);
                assert_eq!(joined_tdi, tdi[..clocks]);
                assert_eq!(clocks, plan.len());
            }
        }
    }
}
