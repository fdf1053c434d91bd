//! The controller's table, as document 01 writes it.

use penthluk_reference::clocks::{operation_clocks, Clock};
use penthluk_reference::controller::{next, State, STATES};

/// "Test-Logic-Reset: Run-Test/Idle, itself. [..]"
const TABLE: [(&str, &str, &str); 16] = [
    ("TestLogicReset", "RunTestIdle", "TestLogicReset"),
    ("RunTestIdle", "RunTestIdle", "SelectDr"),
    ("SelectDr", "CaptureDr", "SelectIr"),
    ("CaptureDr", "ShiftDr", "Exit1Dr"),
    ("ShiftDr", "ShiftDr", "Exit1Dr"),
    ("Exit1Dr", "PauseDr", "UpdateDr"),
    ("PauseDr", "PauseDr", "Exit2Dr"),
    ("Exit2Dr", "ShiftDr", "UpdateDr"),
    ("UpdateDr", "RunTestIdle", "SelectDr"),
    ("SelectIr", "CaptureIr", "TestLogicReset"),
    ("CaptureIr", "ShiftIr", "Exit1Ir"),
    ("ShiftIr", "ShiftIr", "Exit1Ir"),
    ("Exit1Ir", "PauseIr", "UpdateIr"),
    ("PauseIr", "PauseIr", "Exit2Ir"),
    ("Exit2Ir", "ShiftIr", "UpdateIr"),
    ("UpdateIr", "RunTestIdle", "SelectDr"),
];

#[test]
fn sixteen_states() {
    for (state, (name, on_zero, on_one)) in STATES.into_iter().zip(TABLE) {
        assert_eq!(format!("{state:?}"), name);
        assert_eq!(format!("{:?}", next(state, false)), on_zero);
        assert_eq!(format!("{:?}", next(state, true)), on_one);
    }
}

/// What the program `controller_table` prints of the table in the crate of the clock writer: each
/// state's number, then the next one's for TMS 0 and for TMS 1.
const PRINTED: &str = include_str!("../../../crates/controller_table/stdout");

#[test]
fn printed_table() {
    let number = |state| STATES.iter().position(|&other| other == state).expect("one of sixteen");
    let line = |state| {
        let [on_zero, on_one] = [false, true].map(|tms| number(next(state, tms)));
        format!("state\t{}\t{on_zero}\t{on_one}\n", number(state))
    };
    assert_eq!(PRINTED, STATES.map(line).concat());
}

/// Five clocks with TMS 1 reach Test-Logic-Reset from every state.
#[test]
fn five_ones_reset() {
    for state in STATES {
        let last = (0..5).fold(state, |state, _| next(state, true));
        assert_eq!(last, State::TestLogicReset);
    }
}

/// The states in which the clocks of an operation of n bits come.
#[test]
fn states_of_an_operation() {
    for n in 0..40 {
        let bits = vec![true; n];
        let clocks: Vec<Clock> = operation_clocks(&bits).collect();
        assert_eq!(clocks.len(), n + 5);
        let mut state = State::RunTestIdle;
        let mut states = Vec::new();
        for Clock { tms, tdi } in clocks {
            assert_eq!(tdi, state == State::ShiftDr, "TDI is 0 outside Shift-DR");
            states.push(state);
            state = next(state, tms);
        }
        assert_eq!(state, State::RunTestIdle);
        let mut expected = vec![State::RunTestIdle, State::SelectDr, State::CaptureDr];
        expected.extend(vec![State::ShiftDr; n]);
        expected.extend([State::Exit1Dr, State::UpdateDr]);
        assert_eq!(states, expected);
    }
}
