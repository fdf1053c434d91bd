//! Writes the antt modules that say what the definitions of `carry` and of exercises in turn in the crate
//! `model` must give for generated texts into a folder: `carry_rows FOLDER MODULES`, so many modules and one
//! of numbers with three digits. Fails if the rows lose a form. The script tests/definitions has the modules
//! checked.

mod antt_text;

use std::collections::BTreeMap;
use std::path::Path;

use antt_text::{lent, literal, quoted, result};
use penthluk_reference::carry::{carried, carry};
use penthluk_reference::generate::carried::{
    is_target_word, left_by, lines_where, next_text, wiring,
};
use penthluk_reference::generate::carry_cases::{carry_case, carry_chain, carry_random};
use penthluk_reference::generate::carry_forms::carry_forms;
use penthluk_reference::generate::exercises::Exercise;
use penthluk_reference::generate::random::Random;
use penthluk_reference::marker::mark_plan;
use penthluk_reference::network::{Network, Target};
use penthluk_reference::plan_text::parse_plan;
use penthluk_reference::programs;
use penthluk_reference::reader::read_network;

/// The seeds of module i begin so many thousands above this one.
const SEED: u64 = 500;
/// The longest texts.
const MAX_NETWORK: usize = 400;
const MAX_PLAN: usize = 300;
/// The cases of a module, each with a row of `carry` and one of its call.
const CASES: usize = 14;
/// The exercises in turn of a module.
const TURNS: usize = 5;
/// The least counts hold for so many modules and more.
const MODULES: usize = 12;

/// How many cases of twelve modules at least pass and have each form, or are refused with each number.
const LEAST: [(&str, usize); 24] = [
    ("no operation", 13),
    ("one operation", 9),
    ("two operations", 15),
    ("three operations or more", 22),
    ("branch left open", 9),
    ("plain segment", 30),
    ("number of two digits", 6),
    ("no segment", 1),
    ("X", 25),
    ("X of a plain segment", 10),
    ("X of a steering segment", 2),
    ("X from a RESET", 8),
    ("X and known bits in one segment", 8),
    ("X above bit 31", 10),
    ("bit 1 above bit 31", 10),
    ("refused with 1", 12),
    ("refused with 4", 1),
    ("refused with 6", 1),
    ("refused with 9", 3),
    ("refused with 14", 12),
    ("refused with 15", 8),
    ("refused with 16", 1),
    ("refused with 17", 8),
    ("two in turn that pass", 40),
];

fn main() {
    let arguments: Vec<String> = std::env::args().skip(1).collect();
    let [folder, modules] = arguments.as_slice() else {
        eprintln!("usage: carry_rows FOLDER MODULES");
        std::process::exit(2);
    };
    let modules: usize = modules.parse().expect("MODULES");
    let write = |name: &str, rows: Vec<String>| {
        let text = format!("{HEAD}    {}\n    ∷ []\n{TAIL}", rows.join("\n    ∷ "));
        std::fs::write(Path::new(folder).join(format!("{name}.antt")), text).expect("FOLDER");
    };
    let mut counts = BTreeMap::new();
    for module in 1..=modules {
        let seed = SEED + module as u64 * 1_000;
        write(&format!("Carries{module}"), draw_rows(seed, &mut counts));
    }
    write("CarryNumbers", number_rows());
    for (form, least) in LEAST {
        let count = counts.get(form).copied().unwrap_or(0);
        assert!(count >= least || modules < MODULES, "{form}: {count} times, {counts:#?}");
    }
}

/// The rows of a module. Counts the forms of its cases.
fn draw_rows(seed: u64, counts: &mut BTreeMap<String, usize>) -> Vec<String> {
    let random = &mut carry_random(seed);
    let mut rows = Vec::new();
    for case in (seed..).map(carry_case).filter(is_small).take(CASES) {
        for form in forms(&case) {
            *counts.entry(form).or_default() += 1;
        }
        rows.push(program_row(&case));
        rows.push(call_row(random, &case));
        rows.extend(line_rows(&case.network));
    }
    let chains = (seed..).map(carry_chain).filter(|chain| chain.iter().all(is_small));
    let turns = chains.filter(|chain| chain.len() > 1);
    for chain in turns.take(TURNS) {
        let passes = usize::from(chain[1].passes());
        *counts.entry("two in turn that pass".to_string()).or_default() += passes;
        rows.extend(turn_rows(&chain[0], &chain[1]));
    }
    rows
}

/// Whether the texts are small and hold no byte that no text literal has.
fn is_small(exercise: &Exercise) -> bool {
    let small = |text: &[u8], most: usize| text.len() <= most && literal(text).is_some();
    small(&exercise.network, MAX_NETWORK) && small(&exercise.plan, MAX_PLAN)
}

fn forms(case: &Exercise) -> Vec<String> {
    match carry_forms(case) {
        Ok(forms) => forms.into_iter().map(str::to_string).collect(),
        Err(refusal) => vec![format!("refused with {}", refusal.number)],
    }
}

/// Both texts.
fn texts(Exercise { network, plan }: &Exercise) -> String {
    format!("{} {}", quoted(network), quoted(plan))
}

/// What the program prints.
fn program_row(exercise: &Exercise) -> String {
    let printed = programs::carry(&exercise.network, &exercise.plan);
    format!("row (program {}) (prints {})", texts(exercise), quoted(&printed))
}

/// The call, with a buffer of about the length that is needed.
fn call_row(random: &mut Random, exercise: &Exercise) -> String {
    let Exercise { network, plan } = exercise;
    let needed = carried(network, plan).map_or(5, |lines| lines.len());
    let mut holds = lent(match random.below(4) {
        0 => 0,
        1 => needed.saturating_sub(1),
        2 => needed,
        _ => needed + 3,
    });
    let asked = format!("call {} {}", texts(exercise), quoted(&holds));
    let result = result(carry(network, plan, &mut holds), |count| count.to_string());
    format!("row ({asked}) (counts {result} {})", quoted(&holds))
}

/// The target lines of a text whose last line is ended, and the other ones but for `hold` lines.
fn line_rows(network: &[u8]) -> Vec<String> {
    if !network.is_empty() && !network.ends_with(b"\n") {
        return Vec::new();
    }
    let targets = lines_where(network, is_target_word);
    vec![
        format!("row (targets {}) (prints {})", quoted(network), quoted(&targets)),
        next_row(network, b""),
    ]
}

/// The node lines and the `out` line, then these.
fn next_row(network: &[u8], held: &[u8]) -> String {
    let next = [&wiring(network), held].concat();
    format!("row (next {} {}) (prints {})", quoted(network), quoted(held), quoted(&next))
}

/// Exercises in turn: the next text and what is carried on from it without operations; the first one's
/// reads; and the mark of the joined plan for the second one's targets and the first one's reads.
fn turn_rows(first: &Exercise, second: &Exercise) -> Vec<String> {
    let next = Exercise { network: next_text(first), plan: Vec::new() };
    let mut rows = vec![
        next_row(&first.network, &left_by(first)),
        program_row(&next),
        program_row(second),
        reads_row(&first.network),
    ];
    let plans = [&first.plan[..], &second.plan].concat();
    if let (Ok(network), Ok(asked), Ok(joined)) =
        (read_network(&first.network), read_network(&second.network), parse_plan(&plans))
    {
        let targets = [asked.targets, reads(&network)].concat();
        let marked = mark_plan(&Network { targets, ..network }, &joined).map(|(pass, _)| pass);
        let asked = format!("both {} {}", texts(first), texts(second));
        rows.push(format!("row ({asked}) (prints {})", quoted(&programs::marked(marked))));
    }
    rows
}

fn reads(network: &Network) -> Vec<Target> {
    let mut targets = network.targets.clone();
    targets.retain(|target| matches!(target, Target::Read { .. }));
    targets
}

fn reads_row(network: &[u8]) -> String {
    let shown = |network: Network| {
        let reads =
            reads(&network).into_iter().map(|target| format!("read {} ∷ ", target.segment()));
        format!("({}[])", reads.collect::<String>())
    };
    format!("row (reads {}) (asks {})", quoted(network), result(read_network(network), shown))
}

/// A hundred segments and a multiplexer before the last.
fn number_rows() -> Vec<String> {
    let mut network =
        "seg\t0\t1\tp\n".repeat(99) + "mux\t101\t0\t99\t0\nseg\t100\t2\ts\tX0\nout\t101\n";
    network += "hold\t98\t0\n";
    let plan = b"csu\t001\n".to_vec();
    vec![program_row(&Exercise { network: network.into_bytes(), plan })]
}

const HEAD: &str = include_str!("carry_rows_head.txt");
const TAIL: &str = include_str!("carry_rows_tail.txt");
