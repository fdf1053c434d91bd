//! "The controller is that of IEEE Std 1149.1."

/// "The controller's sixteen states".
#[derive(Clone, Copy, Debug, PartialEq, Eq, Hash)]
pub enum State {
    TestLogicReset,
    RunTestIdle,
    SelectDr,
    CaptureDr,
    ShiftDr,
    Exit1Dr,
    PauseDr,
    Exit2Dr,
    UpdateDr,
    SelectIr,
    CaptureIr,
    ShiftIr,
    Exit1Ir,
    PauseIr,
    Exit2Ir,
    UpdateIr,
}

use State::*;

/// All sixteen, in the order of document 01.
pub const STATES: [State; 16] = [
    TestLogicReset,
    RunTestIdle,
    SelectDr,
    CaptureDr,
    ShiftDr,
    Exit1Dr,
    PauseDr,
    Exit2Dr,
    UpdateDr,
    SelectIr,
    CaptureIr,
    ShiftIr,
    Exit1Ir,
    PauseIr,
    Exit2Ir,
    UpdateIr,
];

/// "The controller's sixteen states have one next state for TMS 0 and one for TMS 1". "The IR
/// column repeats the DR one, but Select-IR on 1 goes to Test-Logic-Reset and Update-IR on 1 to
/// Select-DR."
pub fn next(state: State, tms: bool) -> State {
    let (on_zero, on_one) = match state {
        TestLogicReset => (RunTestIdle, TestLogicReset),
        RunTestIdle => (RunTestIdle, SelectDr),
        SelectDr => (CaptureDr, SelectIr),
        CaptureDr => (ShiftDr, Exit1Dr),
        ShiftDr => (ShiftDr, Exit1Dr),
        Exit1Dr => (PauseDr, UpdateDr),
        PauseDr => (PauseDr, Exit2Dr),
        Exit2Dr => (ShiftDr, UpdateDr),
        UpdateDr => (RunTestIdle, SelectDr),
        SelectIr => (CaptureIr, TestLogicReset),
        CaptureIr => (ShiftIr, Exit1Ir),
        ShiftIr => (ShiftIr, Exit1Ir),
        Exit1Ir => (PauseIr, UpdateIr),
        PauseIr => (PauseIr, Exit2Ir),
        Exit2Ir => (ShiftIr, UpdateIr),
        UpdateIr => (RunTestIdle, SelectDr),
    };
    if tms {
        on_one
    } else {
        on_zero
    }
}
