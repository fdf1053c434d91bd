//! The cases of `carry` and the exercises in turn have every form, and every refusal of the mark comes.

use std::collections::BTreeMap;

use penthluk_reference::generate::carry_cases::{carry_case, carry_chain};
use penthluk_reference::generate::carry_forms::carry_forms;
use penthluk_reference::generate::exercises::Exercise;

const CASES: u64 = 6_000;
const CHAINS: u64 = 2_000;

/// What an exercise that passes must have, and how many at least have it among the cases and among the
/// exercises that go on from another one.
const WANTED: [(&str, usize, usize); 29] = [
    ("no operation", 500, 500),
    ("one operation", 400, 500),
    ("two operations", 400, 400),
    ("three operations or more", 1_100, 700),
    ("no target", 1_100, 900),
    ("four targets", 400, 500),
    ("branch left open", 600, 400),
    ("branch left closed", 400, 400),
    ("plain segment", 1_700, 1_500),
    ("segment with shadow", 2_500, 2_000),
    ("number of one digit", 2_500, 2_000),
    ("number of two digits", 1_100, 900),
    ("number of three digits", 400, 350),
    ("segment of one bit", 2_000, 1_900),
    ("segment of 32 bits", 1_100, 1_000),
    ("segment of 64 bits", 1_000, 1_000),
    ("multiplexer, which has no line", 2_000, 1_700),
    ("no segment", 60, 40),
    ("128 segments", 12, 1),
    ("X", 1_000, 500),
    ("X of a plain segment", 500, 250),
    ("X of a steering segment", 60, 40),
    ("X from a RESET", 350, 150),
    ("known bits in place of X", 1_500, 350),
    ("bit turned", 1_600, 1_500),
    ("known bits only", 1_600, 1_700),
    ("X and known bits in one segment", 400, 200),
    ("X above bit 31", 350, 180),
    ("bit 1 above bit 31", 1_000, 1_000),
];

/// How often each form came, and each number; number 0 is a pass.
#[derive(Default, Debug)]
struct Counts {
    forms: BTreeMap<&'static str, usize>,
    numbers: BTreeMap<u32, usize>,
}

impl Counts {
    fn note(&mut self, exercise: &Exercise) {
        let number = match carry_forms(exercise) {
            Ok(forms) => {
                for form in forms {
                    assert!(WANTED.iter().any(|(wanted, _, _)| *wanted == form), "{form}");
                    *self.forms.entry(form).or_default() += 1;
                }
                0
            }
            Err(refusal) => refusal.number,
        };
        *self.numbers.entry(number).or_default() += 1;
    }

    /// Each form at least so often; these numbers and no others, each at least so often.
    fn check(&self, forms: impl Iterator<Item = (&'static str, usize)>, numbers: &[(u32, usize)]) {
        for (form, least) in forms {
            assert!(self.forms.get(form).copied().unwrap_or(0) >= least, "{form}: {self:#?}");
        }
        let wanted = numbers.iter().map(|(number, _)| number);
        assert!(self.numbers.keys().eq(wanted), "{self:#?}");
        let mut pairs = self.numbers.values().zip(numbers);
        assert!(pairs.all(|(count, (_, least))| count >= least), "{self:#?}");
    }
}

#[test]
fn every_form_and_refusal_comes() {
    let mut counts = Counts::default();
    (0..CASES).for_each(|seed| counts.note(&carry_case(seed)));
    let network =
        [(1, 250), (2, 40), (3, 30), (4, 30), (5, 15), (6, 90), (7, 12), (8, 10), (9, 60)];
    let rest = [(14, 400), (15, 300), (16, 30), (17, 250), (18, 40)];
    let forms = WANTED.into_iter().map(|(form, least, _)| (form, least));
    counts.check(forms, &[&[(0, 2_500)], &network[..], &rest].concat());
}

/// The exercises that go on from another one. No start is refused, as each is the one that was left.
#[test]
fn every_form_comes_in_turn() {
    let mut counts = Counts::default();
    for seed in 0..CHAINS {
        carry_chain(seed)[1..].iter().for_each(|exercise| counts.note(exercise));
    }
    let forms = WANTED.into_iter().map(|(form, _, least)| (form, least));
    let numbers = [(0, 2_000), (6, 140), (7, 20), (8, 35), (15, 70), (16, 15), (17, 140)];
    counts.check(forms, &numbers);
}

/// A seed always gives the same texts.
#[test]
fn cases_repeat() {
    for seed in 0..200 {
        assert_eq!(carry_case(seed), carry_case(seed));
        assert_eq!(carry_chain(seed), carry_chain(seed));
    }
}
