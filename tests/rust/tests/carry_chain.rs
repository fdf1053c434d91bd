//! "Used as the next start, it must be the configuration that was left, X for X. The texts agree but for
//! `hold` and targets. If a second plan passes from there and both together have at most 16 operations, the
//! joined plan passes for the second one's targets and the first one's reads; a first write passes as well
//! exactly when its bits are still held at the end. This is meant by the rules of validity, with the limit
//! of four and the ban on repeats set aside."

use penthluk_reference::carry::carried;
use penthluk_reference::clocks::write_clocks;
use penthluk_reference::generate::carried::{
    draw_target_lines, is_target_word, left_by, lines_where, mixed, next_text, wiring,
    without_targets,
};
use penthluk_reference::generate::carry_cases::{carry_chain, carry_random};
use penthluk_reference::generate::exercises::{draw_exercise, Exercise};
use penthluk_reference::generate::random::Random;
use penthluk_reference::limits::{MAX_OPERATIONS, MAX_PLAN_BYTES};
use penthluk_reference::marker::mark;
use penthluk_reference::network::{Configuration, Network, Target};
use penthluk_reference::path::{csu, is_valid, path_length, walk};
use penthluk_reference::plan_text::parse_plan;
use penthluk_reference::play::play;
use penthluk_reference::reader::read_network;
use penthluk_reference::refusal::TARGET;
use penthluk_reference::text::{fields, lines};

const EXERCISES: u64 = 3_000;
const CHAINS: u64 = 6_000;
/// The longest plan that is played on the test frame.
const MAX_PLAYED: usize = 600;

/// What a plan does: the paths of its operations and the configuration that it leaves.
struct Course {
    paths: Vec<Vec<usize>>,
    last: Configuration,
}

/// "A plan is valid if the start and every later configuration, the last included, is valid; each operation
/// has exactly as many bits as the path"
fn course(network: &Network, operations: &[Vec<bool>]) -> Option<Course> {
    let mut last = network.start.clone();
    let mut paths = Vec::new();
    for bits in operations {
        let path = walk(network, &last).ok()?;
        (bits.len() == path_length(network, &path)).then_some(())?;
        csu(network, &mut last, &path, bits);
        paths.push(path);
    }
    is_valid(network, &last).then_some(Course { paths, last })
}

/// "a read target is on some operation's path; a write target is on some operation's path and holds its
/// bits at the end"
fn is_done(course: &Course, target: &Target) -> bool {
    let accessed = course.paths.iter().any(|path| path.contains(&target.segment()));
    accessed
        && match target {
            Target::Read { .. } => true,
            Target::Write { segment, bits } => {
                let wanted: Vec<Option<bool>> = bits.iter().copied().map(Some).collect();
                course.last[segment - 1] == wanted
            }
        }
}

fn accepted(text: &[u8]) -> Network {
    read_network(text).unwrap_or_else(|refusal| panic!("{refusal:?}, {}", shown(text)))
}

fn operations(plan: &[u8]) -> Vec<Vec<bool>> {
    parse_plan(plan).expect("a plan of good form")
}

fn shown(text: &[u8]) -> std::borrow::Cow<'_, str> {
    String::from_utf8_lossy(text)
}

/// The `hold` lines of a text.
fn holds(text: &[u8]) -> Vec<u8> {
    lines_where(text, |word| word == b"hold")
}

/// The target lines of a text.
fn targets(text: &[u8]) -> Vec<u8> {
    lines_where(text, is_target_word)
}

/// The node lines, the `out` line and the printed lines are accepted: the same network with the
/// configuration left as its start.
#[test]
fn next_start_is_what_was_left() {
    let (mut unknown, mut moved, mut operated) = (0, 0, 0);
    for seed in 0..EXERCISES {
        let exercise = draw_exercise(&mut carry_random(seed));
        let first = accepted(&exercise.network);
        let plan = operations(&exercise.plan);
        let start = course(&first, &plan).expect("a valid plan").last;
        unknown += usize::from(start.iter().flatten().any(Option::is_none));
        moved += usize::from(start != first.start);
        operated += usize::from(!plan.is_empty());
        let next = Network { start, targets: Vec::new(), ..first };
        assert_eq!(accepted(&next_text(&exercise)), next, "{}", shown(&exercise.network));
    }
    assert!(unknown > 900 && moved > 1_500 && operated > 2_000, "{unknown} {moved} {operated}");
}

/// The printed bits are those that the test frame holds behind the plan's clocks, and X stands exactly
/// where they hang on what the unknown start bits were: here all 0, or all 1.
#[test]
fn printed_bits_are_held_by_the_frame() {
    let (mut known, mut unknown) = (0, 0);
    for seed in 0..EXERCISES {
        let exercise = draw_exercise(&mut carry_random(seed));
        if exercise.plan.len() > MAX_PLAYED {
            continue;
        }
        let first = accepted(&exercise.network);
        let (mut tms, mut tdi) = (vec![0; MAX_PLAN_BYTES], vec![0; MAX_PLAN_BYTES]);
        let clocks = write_clocks(&exercise.plan, &mut tms, &mut tdi).expect("good form");
        let [zeros, ones] = [false, true]
            .map(|value| play(&first, &tms[..clocks], &tdi[..clocks], &mut || value).last_setting);
        let printed = accepted(&next_text(&exercise)).start;
        let bits = printed.iter().flatten().zip(zeros.iter().flatten()).zip(ones.iter().flatten());
        for ((printed, zero), one) in bits {
            assert_eq!(*printed, if zero == one { *zero } else { None });
            *if printed.is_some() { &mut known } else { &mut unknown } += 1;
        }
        assert_eq!(printed.iter().map(Vec::len).sum::<usize>(), first.bits());
    }
    assert!(known > 100_000 && unknown > 20_000, "{known} {unknown}");
}

/// Target lines behind the printed lines, or mixed with them, are accepted exactly when they are in the
/// first text in place of its own, and refused with the same number.
#[test]
fn targets_as_in_the_first_text() {
    let mut counts = [0; 9];
    for seed in 0..EXERCISES {
        let random = &mut carry_random(seed);
        let exercise = draw_exercise(random);
        let (wiring, held) = (wiring(&exercise.network), left_by(&exercise));
        let start = accepted(&next_text(&exercise)).start;
        for _ in 0..3 {
            let asked = draw_target_lines(random, &accepted(&exercise.network));
            let in_first =
                read_network(&[without_targets(&exercise.network), asked.clone()].concat());
            let behind = [&wiring[..], &held, &asked].concat();
            let between = [&wiring[..], &mixed(random, &held, &asked)].concat();
            for text in [behind, between] {
                match (read_network(&text), &in_first) {
                    (Ok(next), Ok(first)) => {
                        assert_eq!((&next.nodes, next.out), (&first.nodes, first.out));
                        assert_eq!((&next.start, &next.targets), (&start, &first.targets));
                        counts[0] += 1;
                    }
                    (Err(next), Err(first)) => {
                        assert_eq!(next.number, first.number, "{}", shown(&text));
                        counts[next.number as usize] += 1;
                    }
                    (next, first) => panic!("{next:?} {first:?} {}", shown(&text)),
                }
            }
        }
    }
    let [passed, others @ .., six, seven, eight] = counts;
    assert!(passed > 12_000 && six > 600 && seven > 100 && eight > 100, "{counts:?}");
    assert_eq!(others, [0; 5]);
}

/// Calls this with each two exercises in turn that pass and have at most 16 operations together.
fn each_turn(mut check: impl FnMut(&mut Random, &Exercise, &Exercise)) {
    for seed in 0..CHAINS {
        let random = &mut carry_random(seed + CHAINS);
        for turn in carry_chain(seed).windows(2) {
            let [first, second] = turn else { continue };
            let count: usize = turn.iter().map(|turn| operations(&turn.plan).len()).sum();
            if second.passes() && count <= MAX_OPERATIONS {
                check(random, first, second);
            }
        }
    }
}

/// Whether the bits of a `write` line stand among printed `hold` lines.
fn is_held(write: &[u8], printed: &[u8]) -> bool {
    let held = |line: &[u8]| line.strip_prefix(b"hold") == write.strip_prefix(b"write");
    lines(printed).any(|line| held(line.bytes))
}

/// The joined text is the joined plan's, and by the rules of validity it does the second one's targets, the
/// first one's reads, and those first writes that the second one's printed lines still hold.
#[test]
fn joined_plans_are_valid() {
    let (mut turns, mut reads, mut asked) = (0, 0, 0);
    let (mut held, mut lost, mut over_four) = (0, 0, 0);
    each_turn(|_, first, second| {
        let joined = [operations(&first.plan), operations(&second.plan)].concat();
        assert_eq!(parse_plan(&[&first.plan[..], &second.plan].concat()).as_ref(), Ok(&joined));
        let (network, next) = (accepted(&first.network), accepted(&second.network));
        let course =
            course(&network, &joined).expect("the configurations and counts are as in turn");
        let printed = left_by(second);
        turns += 1;
        asked += next.targets.len();
        assert!(next.targets.iter().all(|target| is_done(&course, target)));
        let first_lines = targets(&first.network);
        for (target, line) in network.targets.iter().zip(lines(&first_lines)) {
            match target {
                Target::Read { .. } => {
                    assert!(is_done(&course, target), "{}", shown(&first.network));
                    reads += 1;
                }
                Target::Write { .. } => {
                    let is_held = is_held(line.bytes, &printed);
                    assert_eq!(is_done(&course, target), is_held, "{}", shown(&second.network));
                    *if is_held { &mut held } else { &mut lost } += 1;
                }
            }
        }
        over_four += usize::from(network.targets.len() + next.targets.len() > 4);
    });
    assert!(turns > 7_000 && reads > 5_000 && asked > 10_000, "{turns} {reads} {asked}");
    assert!(held > 2_000 && lost > 3_000 && over_four > 1_600, "{held} {lost} {over_four}");
}

/// Lines of these without the same word and segment again, up to four.
fn draw_lines<'t>(random: &mut Random, mut all: Vec<&'t [u8]>) -> Vec<&'t [u8]> {
    random.shuffle(&mut all);
    let most = random.between(1, 4);
    let mut chosen: Vec<&[u8]> = Vec::new();
    for line in all {
        let is_same = |other: &&[u8]| fields(other)[..2] == fields(line)[..2];
        if chosen.len() < most && !chosen.iter().any(is_same) {
            chosen.push(line);
        }
    }
    chosen
}

/// A text that asks some of both ones' targets from the first start: the joined plan passes exactly when
/// the first writes among them are still held.
#[test]
fn joined_plans_are_marked() {
    let (mut passed, mut refused, mut of_both) = (0, 0, 0);
    each_turn(|random, first, second| {
        let joined = [&first.plan[..], &second.plan].concat();
        let printed = left_by(second);
        let [before, behind] = [first, second].map(|exercise| targets(&exercise.network));
        let all = lines(&behind).chain(lines(&before)).map(|line| line.bytes).collect();
        let chosen = draw_lines(random, all);
        let mut text = [wiring(&first.network), holds(&first.network)].concat();
        chosen.iter().for_each(|line| text.extend([line, &b"\n"[..]].concat()));
        let is_in = |line: &[u8], text: &[u8]| lines(text).any(|other| other.bytes == line);
        let is_lost = |line: &&&[u8]| {
            line.starts_with(b"write") && is_in(line, &before) && !is_held(line, &printed)
        };
        match mark(&text, &joined) {
            Ok(_) => {
                assert_eq!(chosen.iter().find(is_lost), None, "{}", shown(&text));
                passed += 1;
                of_both += usize::from(
                    chosen.iter().any(|line| is_in(line, &before))
                        && chosen.iter().any(|line| is_in(line, &behind)),
                );
            }
            Err(refusal) => {
                let lowest = chosen.iter().position(|line| is_lost(&line)).map(|index| index + 1);
                assert_eq!((refusal.number, Some(refusal.place)), (TARGET, lowest));
                refused += 1;
            }
        }
    });
    assert!(passed > 5_500 && refused > 1_200 && of_both > 900, "{passed} {refused} {of_both}");
}

/// Carrying on in turn leaves what the joined plan leaves at once.
#[test]
fn in_turn_as_joined() {
    let (mut turns, mut both) = (0, 0);
    each_turn(|_, first, second| {
        let joined = [&first.plan[..], &second.plan].concat();
        let reads = lines_where(&first.network, |word| word != b"write");
        assert_eq!(carried(&reads, &joined), Ok(left_by(second)), "{}", shown(&first.network));
        turns += 1;
        both += usize::from(!first.plan.is_empty() && !second.plan.is_empty());
    });
    assert!(turns > 7_000 && both > 4_000, "{turns} {both}");
}

/// Without operations the lines that are printed are those that stand there.
#[test]
fn empty_plan_leaves_the_text() {
    let mut again = 0;
    for seed in 0..EXERCISES {
        let next = next_text(&draw_exercise(&mut carry_random(seed)));
        let exercise = Exercise { network: next.clone(), plan: Vec::new() };
        assert_eq!(left_by(&exercise), holds(&next));
        assert_eq!(next_text(&exercise), next);
        again += usize::from(!holds(&next).is_empty());
    }
    assert!(again > 2_500, "{again}");
}
