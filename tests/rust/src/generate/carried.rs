//! Exercises in turn: each one goes on from where the plan before it has left the network.

use super::cases::draw_plan;
use super::draft::{entry_line, join, Draft, Entry};
use super::exercises::{draw_exercise, met_targets, valid_wander, Exercise};
use super::plans::{planned, wander};
use super::random::Random;
use crate::carry::carried;
use crate::network::Network;
use crate::plan_text::write_plan;
use crate::reader::read_network;
use crate::text::{fields, lines};

/// The lines of a text whose word is wanted, each one ended.
pub fn lines_where(text: &[u8], wanted: impl Fn(&[u8]) -> bool) -> Vec<u8> {
    let wanted = lines(text).filter(|line| wanted(fields(line.bytes)[0]));
    wanted.flat_map(|line| [line.bytes, b"\n"].concat()).collect()
}

pub fn is_target_word(word: &[u8]) -> bool {
    [&b"write"[..], b"read"].contains(&word)
}

/// "The texts agree but for `hold` and targets": the other lines.
pub fn wiring(text: &[u8]) -> Vec<u8> {
    lines_where(text, |word| word != b"hold" && !is_target_word(word))
}

/// The text without its targets.
pub fn without_targets(text: &[u8]) -> Vec<u8> {
    lines_where(text, |word| !is_target_word(word))
}

/// The text that starts where an exercise that passes ends, without targets.
pub fn next_text(exercise: &Exercise) -> Vec<u8> {
    [wiring(&exercise.network), left_by(exercise)].concat()
}

/// The lines that are printed for an exercise that passes.
pub fn left_by(exercise: &Exercise) -> Vec<u8> {
    carried(&exercise.network, &exercise.plan).expect("it passes")
}

/// Exercises in turn, up to so many. All but the last pass.
pub fn draw_chain(random: &mut Random, most: usize) -> Vec<Exercise> {
    let mut exercises = vec![draw_exercise(random)];
    while exercises.len() < most && exercises[exercises.len() - 1].passes() {
        let next = draw_next(random, &exercises[exercises.len() - 1]);
        exercises.push(next);
    }
    exercises
}

/// An exercise that goes on from one that passes. Most often it is accepted, and often it passes.
pub fn draw_next(random: &mut Random, before: &Exercise) -> Exercise {
    let (wiring, held) = (wiring(&before.network), left_by(before));
    let bare = read_network(&[&wiring[..], &held].concat()).expect("it is accepted");
    if random.percent(40) {
        let plan = valid_wander(random, &bare);
        let targets = entry_text(&met_targets(random, &bare, &plan));
        let rest = mixed(random, &held, &targets);
        return Exercise { network: [wiring, rest].concat(), plan: write_plan(&plan) };
    }
    let targets = draw_target_lines(random, &bare);
    let network = [wiring, mixed(random, &held, &targets)].concat();
    let plan = match read_network(&network) {
        Ok(asked) => draw_next_plan(random, &asked),
        Err(_) => wander(random, &bare, 2, 0),
    };
    Exercise { network, plan: write_plan(&plan) }
}

/// The planner's plan where there is one, as it is or changed, else random operations.
fn draw_next_plan(random: &mut Random, network: &Network) -> Vec<Vec<bool>> {
    match planned(network) {
        Some(plan) if random.percent(60) => plan,
        _ => draw_plan(random, network),
    }
}

/// Target lines for a network: up to four, most often acceptable, or with one more of any kind.
pub fn draw_target_lines(random: &mut Random, network: &Network) -> Vec<u8> {
    let mut draft = Draft::of(network);
    let percent = *random.pick(&[0, 5, 20, 50, 90]);
    draft.draw_targets(random, percent);
    if random.percent(20) {
        let target = draw_odd_target(random, &draft);
        draft.entries.insert(random.below(draft.entries.len() + 1), target);
    }
    entry_text(&draft.entries)
}

fn entry_text(entries: &[Entry]) -> Vec<u8> {
    join(&entries.iter().map(entry_line).collect::<Vec<_>>())
}

/// A target on any node, or one that stands there already, perhaps with a wrong count of bits.
fn draw_odd_target(random: &mut Random, draft: &Draft) -> Entry {
    let segment = random.below(draft.nodes.len() + 2);
    match random.below(3) {
        0 if !draft.entries.is_empty() => random.pick(&draft.entries).clone(),
        1 => {
            let len = draft.len(segment).max(1) + random.below(2);
            Entry::Write { segment, bits: random.letters(&['0', '1'], len) }
        }
        _ => Entry::Read { segment },
    }
}

/// `hold` lines and target lines "in any mixture": the targets behind the `hold` lines, between them, or
/// between them in another order. The targets keep theirs.
pub fn mixed(random: &mut Random, holds: &[u8], targets: &[u8]) -> Vec<u8> {
    let part = |text: &[u8]| -> Vec<Vec<u8>> {
        text.split_inclusive(|&byte| byte == b'\n').map(<[u8]>::to_vec).collect()
    };
    let (mut holds, targets) = (part(holds), part(targets));
    let mut is_target = vec![false; holds.len()];
    is_target.resize(holds.len() + targets.len(), true);
    match random.below(3) {
        0 => {}
        1 => random.shuffle(&mut is_target),
        _ => {
            random.shuffle(&mut holds);
            random.shuffle(&mut is_target);
        }
    }
    let (mut holds, mut targets) = (holds.into_iter(), targets.into_iter());
    let line = |is_target| if is_target { targets.next() } else { holds.next() };
    is_target.into_iter().filter_map(line).flatten().collect()
}
