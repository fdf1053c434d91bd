//! Cases of `carry` of all kinds. They have random numbers of their own, so those of `cases` stay what they
//! are.

use super::carried::draw_chain;
use super::cases::{draw_network_text, draw_plan_text, scramble};
use super::exercises::{draw_exercise, Exercise};
use super::near::{near, CHANGES};
use super::plan_damage::{damage_plan, PLAN_FAULTS};
use super::random::Random;
use super::reset_cases::draw_reset_text;
use crate::plan_text::{parse_plan, write_plan};
use crate::reader::read_network;

/// Where the random numbers of a seed differ from those of `cases::case`.
const STREAM: u64 = 0x4341_5252_5900_0000;

/// The random numbers of a seed.
pub fn carry_random(seed: u64) -> Random {
    Random::new(seed ^ STREAM)
}

/// The exercises in turn of a seed, up to three. All but the last pass.
pub fn carry_chain(seed: u64) -> Vec<Exercise> {
    draw_chain(&mut carry_random(seed), 3)
}

/// The case of a seed: about half of them pass.
pub fn carry_case(seed: u64) -> Exercise {
    let random = &mut carry_random(seed);
    match random.below(16) {
        0..=4 => draw_exercise(random),
        5..=7 => draw_chain(random, 2).pop().expect("an exercise"),
        8 | 9 => changed(random),
        10 => damaged(random),
        11 => scrambled(random),
        12 | 13 => {
            let network = draw_network_text(random);
            with_plan(random, network)
        }
        _ => {
            let network = draw_reset_text(random);
            with_plan(random, network)
        }
    }
}

fn with_plan(random: &mut Random, network: Vec<u8>) -> Exercise {
    let plan = draw_plan_text(random, &network);
    Exercise { network, plan }
}

/// An exercise whose plan is one change away from one that passes, if it has an operation.
fn changed(random: &mut Random) -> Exercise {
    let mut exercise = draw_exercise(random);
    let network = read_network(&exercise.network).expect("it is accepted");
    let plan = parse_plan(&exercise.plan).expect("it is of good form");
    let change = *random.pick(&CHANGES);
    if let Some((plan, _)) = near(random, &network, &plan, change) {
        exercise.plan = write_plan(&plan);
    }
    exercise
}

/// An exercise with a plan of wrong form.
fn damaged(random: &mut Random) -> Exercise {
    let exercise = draw_exercise(random);
    let fault = *random.pick(&PLAN_FAULTS);
    Exercise { plan: damage_plan(random, &exercise.plan, fault).0, ..exercise }
}

/// The second exercise of two, with a byte changed in one of its texts.
fn scrambled(random: &mut Random) -> Exercise {
    let mut exercise = draw_chain(random, 2).pop().expect("an exercise");
    let text = if random.percent(70) { &mut exercise.network } else { &mut exercise.plan };
    *text = scramble(random, std::mem::take(text));
    exercise
}
