//! Writes texts and what the Rust version prints for them into a folder: `program_cases FOLDER SEED
//! COUNT`, COUNT generated pairs from SEED on, half as many with RESET fields and with long registers each,
//! about half as many in turn, one for each fault and change, and those at the limits. A pair is NAME.net and NAME.plan; `read` must
//! print NAME.read and `plan` NAME.planned for the first, `clock` NAME.clk for the second, `mark` NAME.mark
//! and `carry` NAME.carry for both. The script tests/programs runs the built programs on them.

mod program_limits;

use std::collections::BTreeSet;
use std::path::Path;

use penthluk_reference::generate::carry_cases::carry_chain;
use penthluk_reference::generate::cases::{case, damaged_with, draw_network, Case};
use penthluk_reference::generate::damage::Damaged;
use penthluk_reference::generate::draft::Draft;
use penthluk_reference::generate::edges::plan_line;
use penthluk_reference::generate::exercises::Exercise;
use penthluk_reference::generate::faults::{Fault, FAULTS, RESET_FAULTS};
use penthluk_reference::generate::large::full;
use penthluk_reference::generate::long_cases::{
    long_case, long_damaged_with, long_random, LONG_FAULTS,
};
use penthluk_reference::generate::near::{near, Change, CHANGES};
use penthluk_reference::generate::plan_damage::{damage_plan, PLAN_FAULTS};
use penthluk_reference::generate::plans::planned;
use penthluk_reference::generate::random::Random;
use penthluk_reference::generate::reset_cases::{reset_case, reset_damaged_with, reset_random};
use penthluk_reference::limits::{MAX_NETWORK_BYTES, MAX_NODES, MAX_PLAN_BYTES, MAX_TARGETS};
use penthluk_reference::plan_text::write_plan;
use penthluk_reference::programs;
use penthluk_reference::reader::read_network;
use program_limits::{all_on_path, long_limits, network_limits, plan_limits, reset_limits};

/// Two texts and what the programs print for them.
struct Pair {
    name: String,
    network: Vec<u8>,
    plan: Vec<u8>,
    read: Vec<u8>,
    planned: Vec<u8>,
    mark: Vec<u8>,
    clocks: Vec<u8>,
    carry: Vec<u8>,
}

impl Pair {
    fn new(name: impl Into<String>, network: Vec<u8>, plan: Vec<u8>) -> Pair {
        Pair {
            name: name.into(),
            read: programs::read(&network),
            planned: programs::plan(&network),
            mark: programs::mark(&network, &plan),
            clocks: programs::clock(&plan),
            carry: programs::carry(&network, &plan),
            network,
            plan,
        }
    }

    /// A network with the plan that the planner finds.
    fn planned(name: &str, draft: Draft) -> Pair {
        let network = draft.text();
        let plan = programs::plan(&network);
        Pair::new(name, network, plan)
    }

    fn write(&self, folder: &Path) {
        let write = |ending: &str, bytes: &[u8]| {
            let file = folder.join(format!("{}.{ending}", self.name));
            std::fs::write(&file, bytes).unwrap_or_else(|error| panic!("{file:?}: {error}"));
        };
        write("net", &self.network);
        write("plan", &self.plan);
        write("read", &self.read);
        write("planned", &self.planned);
        write("mark", &self.mark);
        write("clk", &self.clocks);
        write("carry", &self.carry);
    }

    /// The count of `got` lines, if the plan passes.
    fn gots(&self) -> Option<usize> {
        self.mark.starts_with(b"pass").then(|| line_count(&self.mark) - 1)
    }
}

fn main() {
    let arguments: Vec<String> = std::env::args().skip(1).collect();
    let [folder, seed, count] = arguments.as_slice() else {
        eprintln!("usage: program_cases FOLDER SEED COUNT");
        std::process::exit(2);
    };
    let (seed, count): (u64, u64) = (seed.parse().expect("SEED"), count.parse().expect("COUNT"));
    let random = &mut Random::new(seed);
    let old = |seed| generated("seed", seed, case(seed));
    let reset = |seed| generated("seed-reset", seed, reset_case(seed));
    let long = |seed| generated("seed-long", seed, long_case(seed));
    let mut pairs: Vec<Pair> = (seed..seed + count).map(old).collect();
    pairs.extend(FAULTS.map(|fault| faulty("fault", random, fault, damaged_with)));
    pairs.extend(faulty_plans(random));
    pairs.extend(CHANGES.map(|change| changed(random, change)));
    pairs.extend((0..=MAX_TARGETS).map(|reads| all_on_path(random, reads)));
    pairs.extend(network_limits(random));
    pairs.extend(plan_limits(random));
    pairs.extend((seed..seed + count / 2).map(reset));
    pairs.extend((seed..seed + count / 5).flat_map(generated_chain));
    let random = &mut reset_random(seed);
    pairs.extend(RESET_FAULTS.map(|fault| faulty("fault", random, fault, reset_damaged_with)));
    pairs.extend(reset_limits(random));
    pairs.extend((seed..seed + count / 2).map(long));
    let random = &mut long_random(seed);
    pairs.extend(LONG_FAULTS.map(|fault| faulty("fault-long", random, fault, long_damaged_with)));
    pairs.extend(long_limits(random));
    assert_covered(&pairs);
    pairs.iter().for_each(|pair| pair.write(Path::new(folder)));
}

fn generated(name: &str, seed: u64, case: Case) -> Pair {
    Pair::new(format!("{name}-{seed}"), case.network, case.plan)
}

/// Exercises that go on from one another.
fn generated_chain(seed: u64) -> Vec<Pair> {
    let pair = |(index, exercise): (usize, Exercise)| {
        Pair::new(format!("seed-carry-{seed}-{index}"), exercise.network, exercise.plan)
    };
    carry_chain(seed).into_iter().enumerate().map(pair).collect()
}

/// A network with one fault.
fn faulty(
    name: &str,
    random: &mut Random,
    fault: Fault,
    damaged_with: fn(&mut Random, &[Fault]) -> (Damaged, usize),
) -> Pair {
    loop {
        let (damaged, put) = damaged_with(random, &[fault]);
        if put == 1 {
            return Pair::new(format!("{name}-{fault:?}"), damaged.text(), plan_line(3));
        }
    }
}

/// For each fault of a plan a plan with it.
fn faulty_plans(random: &mut Random) -> Vec<Pair> {
    let network = full().text();
    let plan = programs::plan(&network);
    let pair = |fault| {
        let plan = damage_plan(random, &plan, fault).0;
        Pair::new(format!("plan-fault-{fault:?}"), network.clone(), plan)
    };
    PLAN_FAULTS.map(pair).into()
}

/// A planned network, and the plan with one change.
fn changed(random: &mut Random, change: Change) -> Pair {
    loop {
        let text = draw_network(random).text();
        let Ok(network) = read_network(&text) else { continue };
        let Some(plan) = planned(&network) else { continue };
        if let Some((plan, _)) = near(random, &network, &plan, change) {
            return Pair::new(format!("change-{change:?}"), text, write_plan(&plan));
        }
    }
}

fn line_count(text: &[u8]) -> usize {
    text.iter().filter(|&&byte| byte == b'\n').count()
}

/// The numbers of the refusals among what a program prints; 0 stands for what is no refusal.
fn numbers<'p>(printed: impl Iterator<Item = &'p Vec<u8>>) -> BTreeSet<u32> {
    let number = |printed: &Vec<u8>| {
        let text = std::str::from_utf8(printed).expect("ASCII");
        let fields = text.strip_prefix("fail\t").map(|fields| fields.split('\t').next());
        fields.flatten().map_or(0, |number| number.parse().expect("a number"))
    };
    printed.map(number).collect()
}

/// Every refusal that a program can print is there, passes with 0 to 4 `got` lines, and the longest
/// texts.
fn assert_covered(pairs: &[Pair]) {
    let network_numbers = || (0..=9).chain([18]);
    assert_eq!(numbers(pairs.iter().map(|pair| &pair.read)), network_numbers().collect());
    assert_eq!(
        numbers(pairs.iter().map(|pair| &pair.planned)),
        network_numbers().chain([10, 11]).collect()
    );
    let mark_numbers = network_numbers().chain(14..=17).collect();
    assert_eq!(numbers(pairs.iter().map(|pair| &pair.mark)), mark_numbers);
    assert_eq!(numbers(pairs.iter().map(|pair| &pair.carry)), mark_numbers);
    assert_eq!(numbers(pairs.iter().map(|pair| &pair.clocks)), BTreeSet::from([0, 14]));
    let gots: BTreeSet<usize> = pairs.iter().filter_map(Pair::gots).collect();
    assert_eq!(gots, (0..=MAX_TARGETS).collect());

    let has = |test: &dyn Fn(&Pair) -> bool| pairs.iter().any(test);
    let network = |bytes: usize, printed: &str| {
        has(&|pair| pair.network.len() == bytes && pair.read == printed.as_bytes())
    };
    assert!(network(0, "fail\t4\t1\n"));
    assert!(network(MAX_NETWORK_BYTES, "fail\t6\t262\n"));
    assert!(network(MAX_NETWORK_BYTES, "fail\t18\t1\n"));
    assert!(network(MAX_NETWORK_BYTES + 1, "fail\t3\t0\n"));
    let accepted = |name: &str, bytes: usize| {
        let long = |pair: &Pair| pair.name == name && pair.network.len() > bytes;
        has(&|pair| long(pair) && pair.read.starts_with(b"ok\t128\t4000\t"))
    };
    assert!(accepted("held", 6_500) && accepted("reset-held", 10_500));
    let long = |name: &str, network_bytes: usize, read: &str, plan_bytes: usize| {
        let named = |pair: &Pair| pair.name == name && pair.network.len() > network_bytes;
        has(&|pair| named(pair) && pair.read == read.as_bytes() && pair.plan.len() >= plan_bytes)
    };
    assert!(long("long-row", 600, "ok\t63\t4000\t0\t4000\n", MAX_PLAN_BYTES));
    assert!(long("long-held", 5_000, "ok\t63\t4000\t0\t4000\n", 4_005));
    assert!(long("long-reset-held", 9_000, "ok\t63\t4000\t0\t4000\n", 4_005));
    assert!(long("long-operations-16", 600, "ok\t81\t3972\t4\t3905\n", 62_600));
    assert!(
        has(&|pair| pair.name == "long-choices" && pair.read.starts_with(b"ok\t66\t4000\t6\t"))
    );
    assert!(long("length-65", 0, "fail\t2\t1\n", 0));
    let plan = |bytes: usize, gots: usize, printed: &str| {
        has(&|pair| {
            let passes = pair.gots() == Some(gots) && pair.mark.starts_with(printed.as_bytes());
            pair.plan.len() == bytes && passes
        })
    };
    assert!(plan(0, 0, "pass\t0\t0\n"));
    assert!(plan(MAX_PLAN_BYTES, 4, "pass\t16\t64080\n"));
    let refused = |pair: &Pair| pair.mark == b"fail\t14\t0\n" && pair.clocks == pair.mark;
    assert!(has(&|pair| pair.plan.len() == MAX_PLAN_BYTES + 1 && refused(pair)));
    assert!(has(&|pair| line_count(&pair.planned) == 16 && pair.planned.len() > 55_000));
    assert!(has(&|pair| pair.planned.is_empty()));
    let unknown = |pair: &Pair| pair.carry.contains(&b'X');
    assert!(has(&|pair| line_count(&pair.carry) == MAX_NODES && !unknown(pair)));
    assert!(has(&unknown) && has(&|pair| pair.carry.is_empty()));
}
