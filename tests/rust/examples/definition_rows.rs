//! Writes the antt modules that say what the definitions of the crate `model` must give for
//! generated texts into a folder: `definition_rows FOLDER MODULES`, so many modules of each kind and one of
//! the sums in networks near the limits. Fails if the rows lose a form. The script tests/definitions has the
//! modules checked.

mod antt_text;
mod program_rows;
mod sum_rows;

use std::collections::BTreeMap;
use std::path::Path;

use penthluk_reference::generate::cases::{case, Case};
use penthluk_reference::generate::long_cases::long_case;
use penthluk_reference::generate::long_forms::long_forms;
use penthluk_reference::generate::reset_cases::reset_case;
use penthluk_reference::generate::reset_forms::reset_forms;
use penthluk_reference::reader::read_network;
use program_rows::{
    is_searched, is_small, long_plan_rows, long_rows, network_rows, plan_rows, text_rows,
};
use sum_rows::{limit_rows, sum_forms, sum_rows};

/// The least counts hold for so many modules and more.
const MODULES: usize = 12;

/// The modules of one kind.
struct Kind {
    name: &'static str,
    /// The seeds of module i begin so many thousands above this one.
    seed: u64,
    draw: fn(u64) -> Case,
    chosen: fn(&Case) -> bool,
    rows: fn(&Case) -> Vec<String>,
    /// The cases of a module.
    cases: usize,
    forms: fn(&Case) -> Vec<&'static str>,
    /// How many cases, or rows of sums, of twelve modules at least have a form.
    least: &'static [(&'static str, usize)],
}

/// The longest texts, of a network and of a plan.
const MOST: [usize; 2] = [400, 500];
const MOST_LONG: [usize; 2] = [600, 600];

const KINDS: [Kind; 6] = [
    Kind {
        name: "Texts",
        seed: 0,
        draw: case,
        chosen: |case| is_small(case, MOST),
        rows: |case| [text_rows(case), sum_rows(case)].concat(),
        cases: 30,
        forms: |case| [reset_forms(&case.network), sum_forms(case)].concat(),
        least: &[
            ("no RESET", 355),
            ("sums at the start", 250),
            ("sums after a plan", 160),
            ("walk that stops", 6),
            ("no node met", 10),
            ("node passed by", 350),
            ("node that is not before scan-out", 30),
            ("multiplexer of two inputs met", 320),
            ("multiplexer of three inputs met", 70),
            ("multiplexer of four inputs met", 55),
            ("multiplexer that feeds scan-out", 220),
            ("multiplexer that leads to scan-in", 95),
            ("two multiplexers in a row", 150),
            ("other input with the same sum", 95),
            ("same sum at three nodes", 140),
        ],
    },
    Kind {
        name: "Plans",
        seed: 500_000,
        draw: case,
        chosen: |case| is_small(case, MOST) && is_searched(&case.network, 6),
        rows: plan_rows,
        cases: 40,
        forms: |case| reset_forms(&case.network),
        least: &[("no RESET", 470)],
    },
    Kind {
        name: "ResetTexts",
        seed: 0,
        draw: reset_case,
        chosen: |case| is_small(case, MOST),
        rows: |case| [network_rows(case), sum_rows(case)].concat(),
        cases: 25,
        forms: |case| [reset_forms(&case.network), sum_forms(case)].concat(),
        least: &[
            ("accepted, with RESET", 110),
            ("refused with 18", 10),
            ("hold over RESET", 18),
            ("RESET that opens another path", 20),
            ("9 by RESET", 20),
            ("sums at the start", 155),
            ("sums after a plan", 105),
            ("walk that stops", 6),
            ("multiplexer that leads to scan-in", 65),
            ("two multiplexers in a row", 90),
        ],
    },
    Kind {
        name: "ResetPlans",
        seed: 500_000,
        draw: reset_case,
        chosen: |case| is_small(case, MOST) && is_searched(&case.network, 6),
        rows: plan_rows,
        cases: 20,
        forms: |case| reset_forms(&case.network),
        least: &[
            ("accepted, with RESET", 60),
            ("refused with 18", 10),
            ("hold over RESET", 11),
            ("RESET that opens another path", 9),
            ("9 by RESET", 24),
        ],
    },
    Kind {
        name: "LongTexts",
        seed: 0,
        draw: long_case,
        chosen: |case| is_small(case, MOST_LONG),
        rows: |case| [long_rows(case), sum_rows(case)].concat(),
        cases: 20,
        forms: |case| [long_forms(&case.network), sum_forms(case)].concat(),
        least: &[
            ("accepted before Change 4", 9),
            ("accepted since Change 4", 70),
            ("64 bits with shadow", 40),
            ("64 bits, plain", 10),
            ("address of one bit, the highest of 64", 7),
            ("address of two bits, the highest of 64", 4),
            ("hold that decides by bits above 31", 4),
            ("RESET that decides by bits above 31", 7),
            ("hold with one X of 64", 4),
            ("RESET with one X of 64", 2),
            ("write of 64, another when turned", 8),
            ("2, 65 bits with shadow", 10),
            ("2, 65 bits, plain", 8),
            ("5, one bit at 64 of 64", 2),
            ("5, two bits at 63 of 64", 1),
            ("18, 65 for 64", 3),
            ("6, hold of 63 for 64", 1),
            ("6, write of 65 for 64", 1),
            ("9, one X of 64 in a hold", 2),
            ("9, address too high above bit 31", 4),
            ("sums at the start", 85),
            ("sums after a plan", 55),
            ("walk that stops", 3),
            ("multiplexer that feeds scan-out", 33),
            ("sum above 255", 2),
        ],
    },
    Kind {
        name: "LongPlans",
        seed: 500_000,
        draw: long_case,
        chosen: is_long_plan,
        rows: long_plan_rows,
        cases: 10,
        forms: |case| long_forms(&case.network),
        least: &[
            ("accepted before Change 4", 20),
            ("accepted since Change 4", 75),
            ("64 bits with shadow", 36),
            ("address of one bit, the highest of 64", 4),
            ("address of two bits, the highest of 64", 4),
            ("hold that decides by bits above 31", 11),
            ("RESET that decides by bits above 31", 2),
            ("read of 64", 12),
            ("write of 64, another when turned", 8),
        ],
    },
];

fn main() {
    let arguments: Vec<String> = std::env::args().skip(1).collect();
    let [folder, modules] = arguments.as_slice() else {
        eprintln!("usage: definition_rows FOLDER MODULES");
        std::process::exit(2);
    };
    let modules: usize = modules.parse().expect("MODULES");
    let write = |name: &str, rows: Vec<String>| {
        let text = format!("{HEAD}{}\n    ∷ []\n{TAIL}", rows.join("\n    ∷ "));
        std::fs::write(Path::new(folder).join(format!("{name}.antt")), text).expect("FOLDER");
    };
    for kind in KINDS {
        let mut counts = Counts::new();
        for module in 1..=modules {
            let rows = draw_module(&kind, module, &mut counts);
            write(&format!("{}{module}", kind.name), rows);
        }
        check_counts(&kind, modules, &counts);
    }
    write("SumLimits", limit_rows());
}

/// How many cases, or rows of sums, have each form.
type Counts = BTreeMap<&'static str, usize>;

/// The rows of a module. Counts the forms of its cases.
fn draw_module(kind: &Kind, module: usize, counts: &mut Counts) -> Vec<String> {
    let seeds = kind.seed + module as u64 * 1_000..;
    let mut rows = Vec::new();
    for case in seeds.map(kind.draw).filter(kind.chosen).take(kind.cases) {
        for form in (kind.forms)(&case) {
            *counts.entry(form).or_default() += 1;
        }
        rows.extend((kind.rows)(&case));
    }
    rows
}

/// Fails if a form comes too seldom.
fn check_counts(kind: &Kind, modules: usize, counts: &Counts) {
    for (form, least) in kind.least {
        let count = counts.get(form).copied().unwrap_or(0);
        let enough = count >= *least || modules < MODULES;
        assert!(enough, "{}: {form}: {count} times, {counts:#?}", kind.name);
    }
}

/// Whether the case's network is small and accepted and needs little search.
fn is_long_plan(case: &Case) -> bool {
    let accepted = read_network(&case.network).is_ok();
    accepted && is_small(case, MOST_LONG) && is_searched(&case.network, 4)
}

const HEAD: &str = include_str!("definition_rows_head.txt");
const TAIL: &str = include_str!("definition_rows_tail.txt");
