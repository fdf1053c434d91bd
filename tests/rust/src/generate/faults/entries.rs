//! 6, 7, 8 and 9: the lines after `out` and the start.

use super::Fault;
use crate::generate::base::{instrument_targets, Base};
use crate::generate::damage::{Damaged, DamagedLine};
use crate::generate::draft::entry_line;
use crate::generate::random::Random;
use crate::limits::MAX_TARGETS;
use crate::refusal::{ENTRY, STEERING_TARGET, TARGET_COUNT};

/// An index behind the `out` line.
fn draw_entry_index(random: &mut Random, damaged: &Damaged) -> usize {
    random.between(damaged.out_index() + 1, damaged.lines.len())
}

/// "`hold`, `write`, `read`: not a segment, BITS not LEN long, or same word and segment again"
pub fn put_entry(
    fault: Fault,
    random: &mut Random,
    base: &Base,
    damaged: &mut Damaged,
) -> Option<()> {
    match fault {
        Fault::EntryNoSegment => {
            let number = *random.pick(&[0, base.two_way, base.three_way, 9999]);
            let entries = [format!("read\t{number}"), format!("write\t{number}\t0")];
            let entries = [&entries[..], &[format!("hold\t{number}\tX")]].concat();
            let index = draw_entry_index(random, damaged);
            damaged.insert(index, random.pick(&entries).as_str(), Some(ENTRY));
        }
        Fault::EntryLength => {
            let segment = *random.pick(&base.instruments);
            let len = base.draft.len(segment);
            let other = *random.pick(&[len + 1, len + 40, len.max(2) - 1, 2 * len + 1]);
            let other = if other == len { len + 1 } else { other };
            let word = *random.pick(&["hold", "write"]);
            let line = format!("{word}\t{segment}\t{}", random.letters(&['0', '1'], other));
            let index = draw_entry_index(random, damaged);
            damaged.insert(index, line, Some(ENTRY));
        }
        _ => {
            let index = damaged.draw_line(random, &["hold", "write", "read"])?;
            let again = damaged.lines[index].text.clone();
            damaged.insert(random.between(index + 1, damaged.lines.len()), again, Some(ENTRY));
        }
    }
    Some(())
}

/// "target is a steering segment"
pub fn put_steering_target(random: &mut Random, base: &Base, damaged: &mut Damaged) -> Option<()> {
    let segment = *random.pick(&[base.two_way_segment, base.three_way_segment]);
    let bits = random.letters(&['0', '1'], base.draft.len(segment));
    let entry =
        if random.bit() { format!("read\t{segment}") } else { format!("write\t{segment}\t{bits}") };
    let index = draw_entry_index(random, damaged);
    damaged.insert(index, entry, Some(STEERING_TARGET));
    Some(())
}

/// "fifth target"
pub fn put_fifth_target(random: &mut Random, base: &Base, damaged: &mut Damaged) -> Option<()> {
    let is_target =
        |line: &&DamagedLine| line.is_sound() && ["read", "write"].contains(&line.word());
    let present: Vec<DamagedLine> = damaged.lines.iter().filter(is_target).cloned().collect();
    let same = |line: &DamagedLine, text: &str| {
        line.fields()[..2] == text.split('\t').collect::<Vec<_>>()[..2]
    };
    let mut further: Vec<String> =
        instrument_targets(random, &base.draft, &base.instruments).iter().map(entry_line).collect();
    further.retain(|text| !present.iter().any(|line| same(line, text)));
    for (index, text) in further.into_iter().take(MAX_TARGETS + 1 - present.len()).enumerate() {
        let fault = (present.len() + index == MAX_TARGETS).then_some(TARGET_COUNT);
        damaged.insert(damaged.lines.len(), text, fault);
    }
    Some(())
}

/// "start not valid; first multiplexer met". The walk meets the multiplexer with three inputs
/// first and goes on to the other one.
pub fn put_start(
    fault: Fault,
    random: &mut Random,
    base: &Base,
    damaged: &mut Damaged,
) -> Option<()> {
    let three_way = fault == Fault::StartBeyond || random.bit();
    let (multiplexer, segment, bit) = base.address(three_way);
    let address = match (fault, three_way) {
        (Fault::StartBeyond, _) => "11",
        (_, true) => *random.pick(&["XX", "0X", "X0"]),
        (_, false) => "X",
    };
    let bits = base.draft.start_with(random, segment, bit, address);
    damaged.insert(damaged.lines.len(), format!("hold\t{segment}\t{bits}"), None);
    damaged.bad_start = Some(multiplexer);
    Some(())
}
