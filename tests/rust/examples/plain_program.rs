//! The Rust version as a program: `plain_program read|plan|mark|clock|recover|carry FILE..` prints what that
//! program prints. The example `program_speed` runs it beside the built programs.

use std::io::Write;

use penthluk_reference::programs;

fn main() {
    let arguments: Vec<String> = std::env::args().skip(1).collect();
    let text =
        |file: &String| std::fs::read(file).unwrap_or_else(|error| panic!("{file}: {error}"));
    if let [word, file] = arguments.as_slice() {
        if word == "recover" {
            return print(&recovered(file).unwrap_or_else(|error| panic!("{file}: {error}")));
        }
    }
    let texts: Vec<Vec<u8>> = arguments.iter().skip(1).map(text).collect();
    let printed = match (arguments.first().map(String::as_str), texts.as_slice()) {
        (Some("read"), [network]) => programs::read(network),
        (Some("plan"), [network]) => programs::plan(network),
        (Some("mark"), [network, plan]) => programs::mark(network, plan),
        (Some("clock"), [plan]) => programs::clock(plan),
        (Some("carry"), [network, plan]) => programs::carry(network, plan),
        _ => {
            eprintln!("usage: plain_program read|plan|mark|clock|recover|carry FILE..");
            std::process::exit(2);
        }
    };
    print(&printed);
}

/// The text is read in pieces, as it may be of any length.
fn recovered(file: &str) -> std::io::Result<Vec<u8>> {
    programs::recover_from(&mut std::fs::File::open(file)?)
}

fn print(printed: &[u8]) {
    std::io::stdout().write_all(printed).expect("standard output");
}
