//! The calls on lent memory: a whole text, a line at a time, and texts in pieces.

mod common;

use common::refused;
use penthluk_reference::generate::clock_texts::clock_text;
use penthluk_reference::generate::random::Random;
use penthluk_reference::programs;
use penthluk_reference::recover::calls::{recover_end, recover_line, recover_part, Progress};
use penthluk_reference::recover::{recover, recover_text, Recovery};
use penthluk_reference::refusal::Refusal;

/// A byte that stands in no plan.
const FREE: u8 = 200;

/// 19, then 13; "Output buffers change only on success, in the bytes needed."
#[test]
fn whole_texts() {
    let mut counts = [0; 3];
    for seed in 0..4_000 {
        let text = clock_text(seed).text;
        let answer = recover(&text);
        let needed = answer.as_ref().map_or(7, Vec::len);
        for room in [0, needed.saturating_sub(1), needed, needed + 9] {
            let mut plan = vec![FREE; room];
            let given = recover_text(&text, &mut plan);
            match &answer {
                Ok(recovered) if room >= needed => {
                    assert_eq!(given, Ok(needed));
                    assert_eq!(plan, [&recovered[..], &vec![FREE; room - needed]].concat());
                    counts[0] += 1;
                }
                Ok(_) => {
                    assert_eq!(given, refused(13, needed));
                    assert_eq!(plan, vec![FREE; room]);
                    counts[1] += 1;
                }
                Err(refusal) => {
                    assert_eq!(given, Err(*refusal));
                    assert_eq!(plan, vec![FREE; room]);
                    counts[2] += 1;
                }
            }
        }
    }
    assert!(counts.iter().all(|&count| count > 2_000), "{counts:?}");
}

/// The lines of a text in turn, then its end.
fn by_lines(text: &[u8], plan: &mut [u8]) -> Result<usize, Refusal> {
    let (progress, rest) = recover_part(&Progress::default(), text, plan)?;
    recover_end(&progress, rest)
}

/// A line at a time gives what the whole text gives.
#[test]
fn lines_in_turn() {
    for seed in 0..8_000 {
        let text = clock_text(seed).text;
        let mut plan = vec![FREE; 64_080];
        let given = by_lines(&text, &mut plan).map(|bytes| plan[..bytes].to_vec());
        assert_eq!(given, recover(&text), "seed {seed}");
        if let Ok(recovered) = given {
            assert!(plan[recovered.len()..].iter().all(|&byte| byte == FREE));
        }
    }
}

/// Parts of a text, each behind the rest of the one before.
#[test]
fn parts_in_turn() {
    let random = &mut Random::new(922);
    for seed in 0..3_000 {
        let text = clock_text(seed).text;
        let mut plan = vec![FREE; 64_080];
        let (first, second) = text.split_at(random.below(text.len() + 1));
        let given = recover_part(&Progress::default(), first, &mut plan).and_then(|(at, rest)| {
            let behind = [rest, second].concat();
            let (last, rest) = recover_part(&at, &behind, &mut plan)?;
            recover_end(&last, rest)
        });
        assert_eq!(given.map(|bytes| plan[..bytes].to_vec()), recover(&text), "seed {seed}");
    }
    // A rest of 32,767 bytes may still be a line, one of 32,768 may not.
    let at = Progress { lines: 8, ..Progress::default() };
    let rest = vec![b'0'; 32_768];
    assert_eq!(recover_part(&at, &rest[1..], &mut []), Ok((at, &rest[1..])));
    assert_eq!(recover_part(&at, &rest, &mut []), refused(19, 9));
}

fn progress(lines: usize, state: usize, entries: usize, bytes: usize) -> Progress {
    Progress { lines, state, entries, bytes }
}

/// What each line of a passage leaves in the buffer.
#[test]
fn a_passage_by_hand() {
    let mut plan = *b"............";
    let mut at = Progress::default();
    assert_eq!(at, progress(0, 1, 0, 0));
    for (line, after, text) in [
        (&b"clk\t0\t1"[..], progress(1, 1, 0, 0), b"............"),
        (b"clk\t1\t1", progress(2, 2, 0, 0), b"............"),
        (b"clk\t0\t1", progress(3, 3, 1, 5), b"csu\t........"),
        (b"clk\t0\t1", progress(4, 4, 1, 5), b"csu\t........"),
        (b"clk\t00\t10", progress(5, 4, 1, 7), b"csu\t10......"),
        (b"clk\t1\t1", progress(6, 5, 1, 8), b"csu\t101....."),
        (b"clk\t0\t1", progress(7, 6, 1, 8), b"csu\t101....."),
        (b"clk\t1\t1", progress(8, 7, 1, 8), b"csu\t101....."),
        (b"clk\t1\t1", progress(9, 8, 1, 8), b"csu\t101....."),
        (b"clk\t0\t1", progress(10, 1, 1, 8), b"csu\t101\n...."),
    ] {
        assert_eq!(recover_line(&at, line, &mut plan), Ok(after));
        assert_eq!(&plan, text);
        at = after;
    }
    assert_eq!(recover_end(&at, b""), Ok(8));
    // The next entry needs 13 bytes.
    assert_eq!(recover_line(&at, b"clk\t10\t00", &mut plan), refused(13, 13));
    assert_eq!(&plan, b"csu\t101\n....");
}

/// The bytes counted are needed, also for a line that adds none; 19 comes first.
#[test]
fn short_buffers() {
    let at = progress(4, 4, 2, 20);
    for (line, needed) in [(&b"clk\t0\t0"[..], 21), (b"clk\t111\t100", 21), (b"clk\t110\t100", 21)]
    {
        assert_eq!(recover_line(&at, line, &mut [FREE; 20]), refused(13, needed));
        assert!(recover_line(&at, line, &mut [FREE; 21]).is_ok());
    }
    assert_eq!(
        recover_line(&progress(4, 1, 2, 20), b"clk\t0\t0", &mut [FREE; 19]),
        refused(13, 20)
    );
    assert_eq!(recover_line(&at, b"clk\t0\t00", &mut [FREE; 3]), refused(19, 5));
    assert_eq!(recover_line(&at, b"clk\t11111\t00000", &mut [FREE; 3]), refused(19, 5));
    assert_eq!(recover_line(&progress(9, 0, 0, 0), b"clk\t0\t0", &mut []), refused(19, 9));
}

/// A progress that no line leaves behind is refused at its count of lines.
#[test]
fn odd_progress() {
    let most = usize::MAX;
    let good = [
        progress(0, 1, 0, 0),
        progress(9, 2, 16, 64_080),
        progress(most - 1, 1, 0, 0),
        progress(3, 3, 0, 1),
        progress(3, 8, 16, 64_080),
    ];
    for at in good {
        let mut plan = vec![FREE; 64_080];
        let line: &[u8] = if at.state == 2 { b"clk\t1\t0" } else { b"clk\t0\t0" };
        match recover_line(&at, line, &mut plan) {
            Ok(after) => assert_eq!(after.lines, at.lines + 1),
            Err(refusal) => assert_eq!((at.state, refusal), (2, Refusal::new(19, at.lines + 1))),
        }
        let place = if at.state == 1 { Ok(at.bytes) } else { refused(19, at.lines) };
        assert_eq!(recover_end(&at, b""), place);
        assert_eq!(recover_end(&at, b"0"), refused(19, at.lines + 1));
    }
    let mut odd = vec![progress(most, 1, 0, 0), progress(5, 1, 17, 0), progress(5, 1, 0, 64_081)];
    odd.extend([0, 9, 10, 15, 16, 17, most].map(|state| progress(6, state, 1, 30)));
    odd.extend((3..=8).map(|state| progress(7, state, 1, 0)));
    odd.extend([
        progress(most, most, most, most),
        progress(0, 4, 0, 0),
        progress(1, 1, most, most),
    ]);
    for at in odd {
        let mut plan = vec![FREE; 64_090];
        for line in [&b"clk\t0\t0"[..], b"clk\t11\t00", b"?"] {
            assert_eq!(recover_line(&at, line, &mut plan), refused(19, at.lines), "{at:?}");
        }
        assert_eq!(plan, vec![FREE; 64_090]);
        assert_eq!(recover_end(&at, b""), refused(19, at.lines), "{at:?}");
        assert_eq!(recover_end(&at, b"0"), refused(19, at.lines), "{at:?}");
    }
}

/// However a text is cut into pieces.
#[test]
fn pieces() {
    let random = &mut Random::new(921);
    for seed in 0..6_000 {
        let text = clock_text(seed).text;
        let most = *random.pick(&[1, 2, 10, 1_000, 40_000]);
        let most = if text.len() > 30_000 { most.max(1_000) } else { most };
        let mut recovery = Recovery::default();
        let (mut rest, mut fed) = (&text[..], Ok(()));
        while !rest.is_empty() {
            let (piece, behind) = rest.split_at(random.below(most + 1).min(rest.len()));
            let before = fed;
            fed = recovery.feed(piece);
            assert!(before.is_ok() || fed == before, "a refusal stays");
            rest = behind;
        }
        let answer = recover(&text);
        assert!(fed.is_ok() || fed == answer.clone().map(|_| ()));
        assert_eq!(recovery.end(), answer, "seed {seed}");
        let printed = programs::recover_from(&mut &text[..]).expect("a slice can be read");
        assert_eq!(printed, programs::recover(&text));
    }
}
