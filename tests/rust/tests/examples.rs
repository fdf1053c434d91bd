//! What is stored in `examples` is what the Rust version prints.

use penthluk_reference::programs::{carry, clock, mark, plan, recover};
use std::collections::BTreeMap;
use std::fs::{read, read_dir};
use std::path::Path;

/// The kinds of stored files: a network, the plan that is marked, its mark, its clocks, what the
/// planner prints where that is not the plan; clocks as a probe stored them, and what is recovered from
/// them where that is not the plan; what the plan leaves.
const KINDS: [&str; 8] =
    ["net", "plan", "mark", "clk", "planned", "recorded", "recovered", "carry"];

/// The files of a folder by name.
fn files(folder: &Path) -> BTreeMap<String, Vec<u8>> {
    let paths = read_dir(folder).unwrap().map(|entry| entry.unwrap().path());
    paths.map(|path| (name_of(&path), read(&path).unwrap())).collect()
}

fn name_of(path: &Path) -> String {
    path.file_name().unwrap().to_str().unwrap().to_string()
}

fn repository() -> &'static Path {
    Path::new(concat!(env!("CARGO_MANIFEST_DIR"), "/../.."))
}

fn examples() -> BTreeMap<String, Vec<u8>> {
    files(&repository().join("examples"))
}

/// The names of the networks, without their ending.
fn names(examples: &BTreeMap<String, Vec<u8>>) -> Vec<&str> {
    examples.keys().filter_map(|file| file.strip_suffix(".net")).collect()
}

#[test]
fn stored_outputs_are_printed() {
    let examples = examples();
    let names = names(&examples);
    assert!(!names.is_empty(), "there are no examples");
    for name in names {
        let stored = |kind: &str| examples.get(&format!("{name}.{kind}"));
        let needed = |kind: &str| match stored(kind) {
            Some(bytes) => bytes,
            None => panic!("{name}.{kind} is missing"),
        };
        let network = needed("net");
        let marked = needed("plan");
        let planned = stored("planned").unwrap_or(marked);
        let mut printed = vec![
            ("plan", plan(network), planned),
            ("mark", mark(network, marked), needed("mark")),
            ("clk", clock(marked), needed("clk")),
            ("plan of the clocks", recover(needed("clk")), marked),
        ];
        if let Some(recorded) = stored("recorded") {
            let recovered = stored("recovered").unwrap_or(marked);
            printed.push(("plan of the record", recover(recorded), recovered));
        }
        if let Some(left) = stored("carry") {
            printed.push(("carry", carry(network, marked), left));
        }
        for (kind, printed, stored) in printed {
            let [printed, stored] = [&printed, stored].map(|bytes| String::from_utf8_lossy(bytes));
            assert_eq!(printed, stored, "{name}, {kind}");
        }
    }
}

#[test]
fn every_file_belongs_to_a_network() {
    let examples = examples();
    for file in examples.keys() {
        let (name, kind) = file.rsplit_once('.').unwrap_or((file, ""));
        assert!(KINDS.contains(&kind), "{file} is of no kind");
        assert!(examples.contains_key(&format!("{name}.net")), "{file} has no network");
        let recorded = kind != "recovered" || examples.contains_key(&format!("{name}.recorded"));
        assert!(recorded, "{file} has no record");
    }
}

#[test]
fn further_files_are_stored_only_where_they_differ() {
    let examples = examples();
    for name in names(&examples) {
        let stored = |kind: &str| examples.get(&format!("{name}.{kind}"));
        assert_ne!(stored("planned"), stored("plan"), "{name}");
        assert_ne!(stored("recovered"), stored("plan"), "{name}");
        assert_ne!(stored("recorded"), stored("clk"), "{name}");
    }
}

/// The programs' own tests run on copies.
#[test]
fn copies_are_as_the_examples() {
    let examples = examples();
    let crates = read_dir(repository().join("crates")).unwrap().map(|entry| entry.unwrap().path());
    let folders: Vec<_> =
        crates.map(|path| path.join("data")).filter(|path| path.is_dir()).collect();
    assert!(folders.len() >= 4, "{folders:?}");
    for folder in folders {
        for (name, bytes) in files(&folder) {
            assert_eq!(Some(&bytes), examples.get(&name), "{}/{name}", folder.display());
        }
    }
}
