//! Time of the built programs on the longest texts, from start to the last byte of the answer through
//! a pipe, over that of earlier builds and of the Rust version as a program, in one run:
//! `cargo run --release --offline --manifest-path tests/rust/Cargo.toml --example program_speed BIN
//! [EARLIER..]`, each a folder of programs. The example `plain_program` is to be built before.

use std::path::{Path, PathBuf};
use std::process::{Command, Stdio};
use std::time::{Duration, Instant};

use penthluk_reference::generate::clock_lines::{idle_line, LONGEST_LINE};
use penthluk_reference::generate::edges::{held_chain, long_network};
use penthluk_reference::generate::large::{chain, full};
use penthluk_reference::generate::maze::gray;
use penthluk_reference::generate::random::Random;
use penthluk_reference::limits::{MAX_NETWORK_BITS, MAX_NETWORK_BYTES, MAX_NODES, MAX_OPERATIONS};
use penthluk_reference::plan_text::write_plan;
use penthluk_reference::programs;

/// The programs' runs of one case take turns, so many times.
const ROUNDS: usize = 400;

/// The length of a long text of clocks.
const IDLE_BYTES: usize = 4_000_000;

/// A program, the texts that it is run on, and what they are.
struct Case {
    name: &'static str,
    program: &'static str,
    files: Vec<PathBuf>,
}

fn main() {
    let folders: Vec<PathBuf> = std::env::args_os().skip(1).map(PathBuf::from).collect();
    if folders.is_empty() {
        eprintln!("usage: program_speed BIN [EARLIER..]");
        std::process::exit(2);
    }
    let work = std::env::temp_dir().join(format!("program_speed-{}", std::process::id()));
    std::fs::create_dir(&work).expect("a folder for the texts");
    let plain = std::env::current_exe().expect("this file").with_file_name("plain_program");
    for case in cases(&work) {
        let mut commands: Vec<Command> =
            folders.iter().map(|folder| Command::new(folder.join(case.program))).collect();
        let mut rust = Command::new(&plain);
        rust.arg(case.program);
        commands.push(rust);
        show(&case, commands);
    }
    std::fs::remove_dir_all(&work).expect("the folder's removal");
}

/// The least time of each command, and the ratio of the first to each other.
fn show(case: &Case, mut commands: Vec<Command>) {
    for command in &mut commands {
        command.args(&case.files).stdin(Stdio::null());
    }
    let mut least = vec![Duration::MAX; commands.len()];
    for _ in 0..ROUNDS {
        for (command, least) in commands.iter_mut().zip(&mut least) {
            let start = Instant::now();
            assert!(command.output().expect("a run").status.success());
            *least = (*least).min(start.elapsed());
        }
    }
    let ratios = least[1..]
        .iter()
        .map(|other| format!("{:.2}", least[0].as_secs_f64() / other.as_secs_f64()));
    let ratios: Vec<String> = ratios.collect();
    println!("{}: {} us, ratios {}", case.name, least[0].as_micros(), ratios.join(" "));
}

fn cases(work: &Path) -> Vec<Case> {
    let random = &mut Random::new(1);
    let file = |name: &str, bytes: &[u8]| {
        let file = work.join(name);
        std::fs::write(&file, bytes).expect("a text");
        file
    };
    let line = |_| (0..MAX_NETWORK_BITS).map(|_| random.bit()).collect();
    let plan = write_plan(&(0..MAX_OPERATIONS).map(line).collect::<Vec<_>>());
    let clocks = file("longest.clk", &programs::clock(&plan));
    let plan = file("longest.plan", &plan);
    let [short, long] = [37, LONGEST_LINE].map(|clocks| {
        let line = idle_line(clocks);
        file(&format!("idle-{clocks}.clk"), &line.repeat(IDLE_BYTES / line.len()))
    });
    let network = file("chain.net", &chain(MAX_NODES, MAX_NETWORK_BITS).text());
    let held = file("held.net", &held_chain(&mut Random::new(2)).text());
    let longest = file("longest.net", &long_network(MAX_NETWORK_BYTES));
    let far = file("far.net", &gray(16, Some(&"01".repeat(16)), &[32; 108]).text());
    let full = file("full.net", &full().text());
    let case = |name, program, files| Case { name, program, files };
    vec![
        case("read, 4,000 bits, all held", "read", vec![held]),
        case("read, the longest text", "read", vec![longest]),
        case("plan, 16 operations", "plan", vec![far]),
        case("plan, 128 nodes, 4,000 bits", "plan", vec![full]),
        case("mark, the longest plan", "mark", vec![network.clone(), plan.clone()]),
        case("carry, the longest plan", "carry", vec![network, plan.clone()]),
        case("clock, the longest plan", "clock", vec![plan]),
        case("recover, the longest plan", "recover", vec![clocks]),
        case("recover, 4 MB of waiting, lines of 80 bytes", "recover", vec![short]),
        case("recover, 4 MB of waiting, the longest lines", "recover", vec![long]),
    ]
}
