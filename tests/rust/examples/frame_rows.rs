//! Prints one antt module that says what the test frame's definitions in the crate `model` must
//! give for generated lists of clocks: `frame_rows SEED COUNT FORM`, with FORM `old` or `reset`
//! (texts with RESET fields). The script tests/definitions has the module checked.

use penthluk_reference::controller::State;
use penthluk_reference::frame::Frame;
use penthluk_reference::generate::clock_lists::{clock_list, reset_clock_list, ClockList};
use penthluk_reference::network::{Bit, Network, Node};

fn main() {
    let arguments: Vec<String> = std::env::args().skip(1).collect();
    let [seed, count, form] = arguments.as_slice() else {
        eprintln!("usage: frame_rows SEED COUNT old|reset");
        std::process::exit(2);
    };
    let (seed, count): (u64, u64) = (seed.parse().expect("SEED"), count.parse().expect("COUNT"));
    let draw = if form == "reset" { reset_clock_list } else { clock_list };
    let rows: Vec<String> = (seed..seed + count).map(|seed| row(&draw(seed))).collect();
    print!("{}{}\n    ∷ []\n{}", HEAD, rows.join("\n    ∷ "), TAIL);
}

/// The row of one list: network text, first state and registers, bits fed, TMS, TDI; then last
/// state and registers, and what shows at each clock.
fn row(list: &ClockList) -> String {
    let network = literal(&list.text);
    let first = frame_text(&list.network, &list.first());
    let fed = list.fed.iter().enumerate().filter(|(_, fed)| !fed.is_empty());
    let fed: String =
        fed.map(|(clock, fed)| format!("fed {clock} {} ∷ ", quoted(fed.iter().copied()))).collect();
    let tms = quoted(list.clocks.iter().map(|clock| clock.tms));
    let tdi = quoted(list.clocks.iter().map(|clock| clock.tdi));
    let (last, shown) = list.play(|_, _| {});
    let last = frame_text(&list.network, &last);
    let shown: String = shown.into_iter().map(|bit| bit.map_or('-', digit)).collect();
    format!("    row {network} {first} ({fed}[]) {tms} {tdi} {last} \"{shown}\"")
}

/// A network text as a quoted text of antt.
fn literal(text: &[u8]) -> String {
    format!("{:?}", std::str::from_utf8(text).expect("ASCII"))
}

fn digit(bit: bool) -> char {
    if bit {
        '1'
    } else {
        '0'
    }
}

fn quoted(bits: impl Iterator<Item = bool>) -> String {
    format!("\"{}\"", bits.map(digit).collect::<String>())
}

/// The state, and a register for each node.
fn frame_text(network: &Network, frame: &Frame) -> String {
    let known = |bits: &[Bit]| quoted(bits.iter().map(|bit| bit.expect("known")));
    let register = |(index, node): (usize, &Node)| {
        let held = known(&frame.setting()[index]);
        match node {
            Node::Segment { shadow: true, .. } => {
                format!("s {held} {} ∷ ", known(&frame.shift()[index]))
            }
            _ => format!("p {held} ∷ "),
        }
    };
    let registers: String = network.nodes.iter().enumerate().map(register).collect();
    format!("{} ({registers}[])", state_name(frame.state()))
}

/// The state's name in the crate `model`.
fn state_name(state: State) -> &'static str {
    match state {
        State::TestLogicReset => "reset",
        State::RunTestIdle => "idle",
        State::SelectDr => "selectDR",
        State::CaptureDr => "captureDR",
        State::ShiftDr => "shiftDR",
        State::Exit1Dr => "exit1DR",
        State::PauseDr => "pauseDR",
        State::Exit2Dr => "exit2DR",
        State::UpdateDr => "updateDR",
        State::SelectIr => "selectIR",
        State::CaptureIr => "captureIR",
        State::ShiftIr => "shiftIR",
        State::Exit1Ir => "exit1IR",
        State::PauseIr => "pauseIR",
        State::Exit2Ir => "exit2IR",
        State::UpdateIr => "updateIR",
    }
}

const HEAD: &str = include_str!("frame_rows_head.txt");
const TAIL: &str = include_str!("frame_rows_tail.txt");
