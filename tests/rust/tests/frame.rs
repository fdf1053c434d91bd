//! The test frame by itself.

mod common;

use common::{accepted, text};
use penthluk_reference::controller::State;
use penthluk_reference::frame::Frame;
use penthluk_reference::generate::random::Random;
use penthluk_reference::generate::tiny::tiny;
use penthluk_reference::network::{Configuration, Network, Node};
use penthluk_reference::path::{path_length, walk};
use penthluk_reference::play::play;
use penthluk_reference::reader::read_network;

/// Gives no bit: for clocks that are not in Capture-DR.
fn no_capture(_: usize, _: usize) -> bool {
    panic!("this clock captures nothing")
}

/// Network A of document 01 with its plan, every captured bit 1.
#[test]
fn a_by_hand() {
    let network = text(&["seg 0 4 s", "mux 3 0 0 1", "seg 2 1 s", "out 3", "write 1 1010"]);
    let network = read_network(&network).expect("A is accepted");
    let (tms, tdi) = (b"1001101000000110", b"0001000000010100");
    let playback = play(&network, tms, tdi, &mut || true);
    let shown: Vec<(usize, bool)> =
        (0..16).filter_map(|clock| playback.shown[clock].map(|bit| (clock, bit))).collect();
    let expected = [3, 9, 10, 11, 12, 13].map(|clock| (clock, true));
    assert_eq!(shown, expected);
    assert!(playback.always_valid);
    assert_eq!(playback.last_state, State::RunTestIdle);
    // Bit 0 first.
    assert_eq!(playback.last_setting[0], [false, true, false, true].map(Some));
    assert_eq!(playback.last_setting[2], [Some(false)]);
}

/// "a path without bits shows TDI"
#[test]
fn path_without_bits() {
    let network = read_network(&text(&["out 0"])).expect("it is accepted");
    let mut frame = Frame::new(&network, &mut || true);
    for tms in [true, false, false] {
        assert_eq!(frame.clock(tms, true, &mut no_capture), None);
    }
    assert_eq!(frame.clock(false, true, &mut no_capture), Some(true));
    assert_eq!(frame.clock(false, false, &mut no_capture), Some(false));
}

/// The held bits at the places of a path, in place order.
fn at_places(path: &[usize], setting: &Configuration) -> Vec<Option<bool>> {
    path.iter().flat_map(|&segment| setting[segment - 1].clone()).collect()
}

/// One passage through the DR column with `shifts` shift clocks and pauses between some of them.
/// Gives the bits captured, shown and shifted.
fn passage(frame: &mut Frame, random: &mut Random, shifts: usize) -> [Vec<bool>; 3] {
    let (mut captured, mut shown, mut shifted) = (Vec::new(), Vec::new(), Vec::new());
    frame.clock(true, true, &mut no_capture);
    frame.clock(false, true, &mut no_capture);
    frame.clock(shifts == 0, true, &mut |_, _| {
        captured.push(random.bit());
        captured[captured.len() - 1]
    });
    for shift in 0..shifts {
        let last = shift + 1 == shifts;
        let pause = !last && random.percent(20);
        let tdi = random.bit();
        shifted.push(tdi);
        shown.extend(frame.clock(last || pause, tdi, &mut no_capture));
        if pause {
            // Exit1-DR, Pause-DR three times, Exit2-DR, and back to Shift-DR.
            for tms in [false, false, false, true, false] {
                assert_eq!(frame.clock(tms, true, &mut no_capture), None);
            }
        }
    }
    for tms in [true, false] {
        assert_eq!(frame.clock(tms, true, &mut no_capture), None);
    }
    [captured, shown, shifted]
}

/// What goes in comes out n shift clocks later; the last n bits are held after the update.
#[test]
fn shifting_any_number_of_times() {
    let random = &mut Random::new(601);
    for _ in 0..4_000 {
        let (_, network) = accepted(random, |random| tiny(random, 10).text());
        let mut frame = Frame::new(&network, &mut || random.bit());
        let before = frame.setting().clone();
        let path = walk(&network, &before).expect("the start is valid");
        let places = path_length(&network, &path);
        let shifts = random.below(3 * places + 4);
        let [captured, shown, shifted] = passage(&mut frame, random, shifts);
        assert_eq!(frame.state(), State::RunTestIdle);
        let stream = [captured, shifted].concat();
        assert_eq!(shown, stream[..shifts]);
        let held: Vec<_> = stream[shifts..].iter().copied().map(Some).collect();
        assert_eq!(at_places(&path, frame.setting()), held);
        for (index, bits) in frame.setting().iter().enumerate() {
            assert!(path.contains(&(index + 1)) || *bits == before[index]);
        }
    }
}

/// Whether two settings agree but for plain segments on the path.
fn agree_but_for_plain(network: &Network, before: &Configuration, after: &Configuration) -> bool {
    let path = walk(network, before).unwrap_or_default();
    network.nodes.iter().enumerate().all(|(index, node)| {
        let plain = matches!(node, Node::Segment { shadow: false, .. });
        (plain && path.contains(&(index + 1))) || before[index] == after[index]
    })
}

/// "In other states, and wherever the held bits are no valid setting, no bit changes or shows."
#[test]
fn nothing_changes_elsewhere() {
    let random = &mut Random::new(602);
    let mut clocks_without_path = 0;
    for _ in 0..600 {
        let (_, network) = accepted(random, |random| tiny(random, 8).text());
        let mut frame = Frame::new(&network, &mut || random.bit());
        for _ in 0..200 {
            let (state, before) = (frame.state(), frame.setting().clone());
            let valid = frame.setting_is_valid();
            let (tms, tdi) = (random.percent(45), random.bit());
            let shown = frame.clock(tms, tdi, &mut |_, _| random.bit());
            assert_eq!(shown.is_some(), valid && state == State::ShiftDr);
            match state {
                State::UpdateDr if valid => {}
                State::CaptureDr | State::ShiftDr if valid => {
                    assert!(agree_but_for_plain(&network, &before, frame.setting()))
                }
                _ => assert_eq!(*frame.setting(), before),
            }
            clocks_without_path += usize::from(!valid);
        }
    }
    assert!(clocks_without_path > 1_000, "{clocks_without_path}");
}
