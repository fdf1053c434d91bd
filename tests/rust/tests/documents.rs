//! What the documents name is there: each refusal's number stands once in every list of them, each
//! wrong program and each crate that a document names exists, and specs/ imports no proofs/.

use std::fs;
use std::path::{Path, PathBuf};

fn top() -> PathBuf {
    Path::new(env!("CARGO_MANIFEST_DIR")).join("../..")
}

fn read(path: &str) -> String {
    fs::read_to_string(top().join(path)).unwrap_or_else(|error| panic!("{path}: {error}"))
}

/// The paths of a folder, sorted.
fn entries(path: &Path) -> Vec<PathBuf> {
    let entries = fs::read_dir(path).unwrap_or_else(|error| panic!("{}: {error}", path.display()));
    let mut paths: Vec<PathBuf> = entries.map(|entry| entry.expect("an entry").path()).collect();
    paths.sort();
    paths
}

fn number(text: &str) -> u32 {
    text.trim().parse().unwrap_or_else(|_| panic!("no number: {text:?}"))
}

/// The names and numbers of the lines `NAME = NUMBER` between this beginning and end; comments are
/// left out.
fn equations(text: &str, begin: &str, end: &str) -> Vec<(String, u32)> {
    let lines = text.lines().filter(|line| !line.starts_with("--"));
    let lines = lines.filter_map(|line| line.strip_prefix(begin)?.strip_suffix(end));
    let pairs = lines.filter_map(|line| line.split_once(" = "));
    pairs.map(|(name, value)| (name.to_string(), number(value))).collect()
}

fn numbers(equations: &[(String, u32)]) -> Vec<u32> {
    equations.iter().map(|(_, number)| *number).collect()
}

/// The first cells of the table with this head.
fn first_cells<'t>(text: &'t str, head: &str) -> Vec<&'t str> {
    let lines = text.lines().skip_while(|line| !line.starts_with(head)).skip(2);
    let rows = lines.map_while(|line| line.strip_prefix('|'));
    rows.map(|row| row.split('|').next().expect("a cell")).collect()
}

fn sorted(mut numbers: Vec<u32>) -> Vec<u32> {
    numbers.sort_unstable();
    numbers
}

#[test]
fn every_number_in_every_list() {
    let constants = numbers(&equations(&read("tests/rust/src/refusal.rs"), "pub const ", ";"));
    assert!(constants.len() >= 19 && constants.windows(2).all(|pair| pair[0] < pair[1]));
    let code = equations(&read("crates/model/src/refusal.rt"), "    ", ",");
    assert_eq!(numbers(&code), constants, "refusal.rt");
    let defined = equations(&read("crates/model/specs/Refusals.antt"), "", "");
    assert_eq!(numbers(&defined), constants, "Refusals.antt");
    // The rows with the places that a number can have.
    let places = ["model/specs/Places.antt", "recover_model/specs/RecoverDemands.antt"];
    let places = places.map(|file| read(&format!("crates/{file}"))).concat();
    for (name, _) in &defined {
        let row = format!("refusal.{name} ");
        assert!(places.contains(&row), "no row of {name} with its places");
    }
    // A row of one refusal: its number and its place.
    let readme = read("README.md");
    let rows = first_cells(&readme, "| Number, place |").into_iter();
    let listed = rows.map(|cell| number(cell.split(',').next().expect("a number"))).collect();
    assert_eq!(sorted(listed), constants, "README.md");
    // A row of several refusals.
    let sentences = read("docs/SENTENCES.md");
    let rows = first_cells(&sentences, "| Number | Definition |").into_iter();
    let listed = rows.flat_map(|cell| cell.split(',').map(number)).collect();
    assert_eq!(sorted(listed), constants, "docs/SENTENCES.md");
    let page = read("command/penthluk.1");
    let section = page.split("\n.SH ").find(|section| section.starts_with("REFUSALS"));
    let rows = section.expect("REFUSALS").lines().filter_map(|line| line.strip_prefix(".B "));
    let listed = rows.flat_map(|row| row.split(',').map(number)).collect();
    assert_eq!(sorted(listed), constants, "command/penthluk.1");
}

/// The quoted words of the documents, as `network_draft/five_at_out` or `crates/model/specs`.
fn quoted() -> Vec<String> {
    let mut words = Vec::new();
    let mut documents = vec![top().join("README.md"), top().join("CONTRIBUTING.md")];
    for folder in ["docs", "docs/changes"] {
        documents.extend(entries(&top().join(folder)).into_iter().filter(|path| path.is_file()));
    }
    for path in documents {
        let text = fs::read_to_string(&path).expect("a document");
        words.extend(text.split('`').skip(1).step_by(2).map(str::to_string));
    }
    words
}

#[test]
fn every_wrong_program_and_crate_named() {
    let crates = top().join("crates");
    let mut named = 0;
    for word in quoted() {
        let parts: Vec<&str> = word.split('/').collect();
        if let [name, label] = parts[..] {
            let edits = crates.join(name).join("must-fail");
            let is_label = label.chars().all(|c| c == '_' || c.is_ascii_alphanumeric());
            if is_label
                && edits.is_dir()
                && !["src", "specs", "proofs", "must-fail"].contains(&label)
            {
                assert!(edits.join(format!("{label}.edit")).is_file(), "{word}: no such edit");
                named += 1;
            }
        }
        if parts[0] == "crates" && parts.len() > 1 && !["*", "NAME"].contains(&parts[1]) {
            assert!(crates.join(parts[1]).is_dir(), "{word}: no such crate");
            named += 1;
        }
    }
    assert!(named > 80, "{named} names");
}

#[test]
fn every_crate_in_its_documents() {
    let (listing, readme) = (read("crates.txt"), read("README.md"));
    let architecture = read("docs/ARCHITECTURE.md");
    for path in entries(&top().join("crates")) {
        let name = path.file_name().and_then(|name| name.to_str()).expect("a name").to_string();
        let named = |line: &str| {
            line.starts_with(&format!("{name}:")) || line.starts_with(&format!("{name} staticlib:"))
        };
        assert!(listing.lines().any(named), "{name}");
        assert!(
            readme.contains(&format!("`{name}`")) || readme.contains(&format!("crates/{name}")),
            "{name}"
        );
        assert!(architecture.contains(&name), "docs/ARCHITECTURE.md has no {name}");
    }
}

#[test]
fn specs_import_no_proofs() {
    for path in entries(&top().join("crates")) {
        let specs = path.join("specs");
        let files = if specs.is_dir() { entries(&specs) } else { Vec::new() };
        for file in files {
            let text = fs::read_to_string(&file).expect("a file of specs");
            // The library's own words on options and lists stand below Rattle.std.proofs.
            let imports = text.lines().filter(|line| {
                line.starts_with("use Rattle") && !line.starts_with("use Rattle.std.")
            });
            let mut bad = imports.filter(|line| line.contains(".proofs."));
            assert_eq!(bad.next(), None, "{}", file.display());
        }
    }
}
