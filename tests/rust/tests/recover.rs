//! "Each passage from Capture-DR to Update-DR becomes one `csu` line with the TDI bits of its Shift-DR
//! clocks; waiting in Pause-DR, shifting on after Exit2-DR and going straight from Update-DR to
//! Select-DR are allowed."

mod common;

use common::{refused, text};
use penthluk_reference::generate::clock_lines::{clk_line, idle_line};
use penthluk_reference::programs;
use penthluk_reference::recover::recover;

/// What these lines give back; each line shows its fields with spaces.
#[track_caller]
fn gives(lines: &[&str], plan: &[&str]) {
    let printed = programs::recover(&text(lines));
    assert_eq!(String::from_utf8_lossy(&printed), String::from_utf8_lossy(&text(plan)));
}

/// The line of the refusal.
#[track_caller]
fn fails(clocks: &[u8], line: usize) {
    let printed = programs::recover(clocks);
    let shown = String::from_utf8_lossy(&clocks[..clocks.len().min(200)]);
    assert_eq!(String::from_utf8_lossy(&printed), format!("fail\t19\t{line}\n"), "{shown:?}");
}

#[test]
fn as_the_clock_writer_writes() {
    assert_eq!(programs::recover(b""), b"");
    // A, B, C and D of document 01
    gives(&["clk 100110 000100", "clk 1000000110 0000010100"], &["csu 1", "csu 00101"]);
    gives(&["clk 10000110 00010000", "clk 10000110 00000000"], &["csu 100", "csu 000"]);
    gives(&["clk 10110 00000"], &["csu "]);
    gives(&["clk 1000110 0000100"], &["csu 01"]);
}

#[test]
fn waiting() {
    // in Run-Test/Idle, before, between and behind
    gives(&["clk 0 0"], &[]);
    gives(&["clk 0 1", "clk 000 101"], &[]);
    gives(&["clk 0001001100100011000 0000001000000110000"], &["csu 1", "csu 11"]);
    // in Pause-DR, one clock or more
    gives(&["clk 1001010110 0001000000"], &["csu 10"]);
    gives(&["clk 100100000010110 000000000000100"], &["csu 01"]);
    // twice in one passage
    gives(&["clk 1001010100100110 0001000100000100"], &["csu 1101"]);
}

#[test]
fn every_way_through() {
    // shifting on after Exit2-DR
    gives(&["clk 100010010110 000100000100"], &["csu 101"]);
    // Exit1-DR, Pause-DR, Exit2-DR, Update-DR without more shifting
    gives(&["clk 10010110 00010000"], &["csu 1"]);
    gives(&["clk 1001000110 0001000000"], &["csu 1"]);
    // no clock in Shift-DR
    gives(&["clk 10110 11111"], &["csu "]);
    gives(&["clk 1010110 1111111"], &["csu "]);
    // the first clock in Shift-DR after Exit2-DR
    gives(&["clk 101010110 000000100"], &["csu 1"]);
    // straight from Update-DR to Select-DR
    gives(&["clk 1001110110 0001000000"], &["csu 1", "csu "]);
    gives(&["clk 1011101110011100110 0000000000010000000"], &["csu ", "csu ", "csu 1", "csu 0"]);
}

/// TDI outside Shift-DR is dropped.
#[test]
fn any_tdi() {
    gives(&["clk 0100010010110 0000100000100"], &["csu 101"]);
    gives(&["clk 0100010010110 1111101111111"], &["csu 101"]);
    gives(&["clk 0100010010110 1111011111011"], &["csu 010"]);
}

/// "reads `clk` lines, joins them"
#[test]
fn any_lines() {
    let plan = ["csu 10", "csu 1"];
    gives(&["clk 1000110100110 0001000000100"], &plan);
    gives(&["clk 1000110 0001000", "clk 100110 000100"], &plan);
    gives(&["clk 10 00", "clk 00 01", "clk 110100110 000000100"], &plan);
    gives(&["clk 1000 0001", "clk 1 0", "clk 1 0", "clk 01 00", "clk 00110 00100"], &plan);
    let (tms, tdi) = ("1000110100110", "0001000000100");
    let one_each = tms.chars().zip(tdi.chars()).map(|(tms, tdi)| format!("clk {tms} {tdi}"));
    let one_each: Vec<String> = one_each.collect();
    gives(&one_each.iter().map(String::as_str).collect::<Vec<_>>(), &plan);
}

/// "a wrong line form or an empty field", "TMS and TDI of unequal length"
#[test]
fn form() {
    for wrong in [
        "",
        " ",
        "c",
        "clk",
        "clk ",
        "clk  ",
        "clk 0",
        "clk 0 ",
        "clk  0",
        "clk 0 0 ",
        "clk 0 0 0",
        " clk 0 0",
        "CLK 0 0",
        "clk0 0",
        "clk0 0 0",
        "csu 0",
        "out 0",
        "clks 0 0",
        "cl 0 0",
        "clk 0 X",
        "clk 2 0",
        "clk 0 /",
        "clk 0\0 00",
        "clk 00 0\u{1}",
        "clk 0\r 00",
        "clk 00 00\r",
        "clk 00 0",
        "clk 0 00",
        "clk 000 0",
        "clk 0 000",
        "clk 0  0",
        "clk 00  0",
        "\u{feff}clk 0 0",
    ] {
        for before in 0..3 {
            let lines = [&vec!["clk 00 11"; before][..], &[wrong, "clk 0 0"]].concat();
            fails(&text(&lines), before + 1);
        }
    }
    for byte in (0..=255).filter(|byte| !b"01".contains(byte)) {
        fails(&clk_line(&[b'0', byte], b"00"), 1);
        fails(&clk_line(b"00", &[byte, b'1']), 1);
        // in a long line, which is looked at in another way
        for index in [0, 20, 99] {
            let mut field = vec![b'0'; 100];
            field[index] = byte;
            fails(&clk_line(&field, &[b'1'; 100]), 1);
            fails(&clk_line(&[b'0'; 100], &field), 1);
        }
    }
    // spaces for tabs
    fails(b"clk 0 0\n", 1);
    fails(b"clk\t0 0\n", 1);
}

/// An unended last line, also where it is a line but for its end.
#[test]
fn unended() {
    for wrong in ["clk\t0\t0", "clk\t10110\t00000", "clk\t0\t", "clk\t", "c", "\t", "\0", "\r"] {
        fails(wrong.as_bytes(), 1);
        fails(["clk\t0\t0\n", wrong].concat().as_bytes(), 2);
    }
    // behind a passage under way, too
    fails(b"clk\t10\t00\nclk\t0\t0", 2);
    // A blank line at the end is a line.
    fails(b"clk\t0\t0\n\n", 2);
    fails(b"\n", 1);
}

/// "entry to Select-IR", at the line of the clock that leads there
#[test]
fn select_ir() {
    fails(&text(&["clk 11 00"]), 1);
    fails(&text(&["clk 111110 000000"]), 1);
    fails(&text(&["clk 1 0", "clk 1 0", "clk 0 0"]), 2);
    fails(&text(&["clk 0 0", "clk 01 00", "clk 1 0"]), 3);
    // from Update-DR
    fails(&text(&["clk 10111 00000", "clk 1 0"]), 2);
    fails(&text(&["clk 101111 000000"]), 1);
    // The first two clocks of each are allowed.
    fails(&text(&["clk 1 0"]), 1);
    gives(&["clk 1 0", "clk 0110 0000"], &["csu "]);
}

/// "(at the last line) an end outside Run-Test/Idle"
#[test]
fn end_outside() {
    let tms = b"100010010110";
    for clocks in 1..tms.len() {
        let tdi = vec![b'1'; clocks];
        let line = clk_line(&tms[..clocks], &tdi);
        fails(&line, 1);
        fails(&[idle_line(3), line.clone()].concat(), 2);
        let each: Vec<u8> = tms[..clocks].iter().flat_map(|&tms| clk_line(&[tms], b"0")).collect();
        fails(&each, clocks);
    }
    gives(&["clk 100010010110 000100000100"], &["csu 101"]);
    // In Pause-DR for some lines more.
    fails(&text(&["clk 10010 00000", "clk 0 0", "clk 00 00"]), 3);
}

/// The lowest line at which anything is wrong.
#[test]
fn first_offending_line() {
    fails(&text(&["clk 11 00", "clk 0 00"]), 1);
    fails(&text(&["clk 0 00", "clk 11 00"]), 1);
    fails(&text(&["clk 10 00", "clk 0 00", "clk 0 0"]), 2);
    // An end outside Run-Test/Idle is no refusal of a line before the last one.
    fails(&text(&["clk 10 00", "clk 0 0", "clk 0"]), 3);
    fails(b"clk\t1\t0\nclk\t1\t0\nclk", 2);
    fails(&[&text(&["clk 0 0"])[..], &idle_line(16_382), b"\n"].concat(), 2);
}

#[test]
fn answers_of_the_call() {
    assert_eq!(recover(&text(&["clk 10110 00000"])), Ok(b"csu\t\n".to_vec()));
    assert_eq!(recover(&text(&["clk 0 0", "clk 10 00"])), refused(19, 2));
}
