//! 1: "word, field count or field form wrong; last line unended".

use super::Fault;
use crate::generate::damage::{Damaged, DamagedLine};
use crate::generate::random::Random;
use crate::refusal::FORM;

pub fn put_form(fault: Fault, random: &mut Random, damaged: &mut Damaged) -> Option<()> {
    let count = damaged.lines.len();
    match fault {
        Fault::BlankLine => damaged.insert(random.below(count + 1), "", Some(FORM)),
        Fault::CsuLine => damaged.insert(random.below(count + 1), "csu\t01", Some(FORM)),
        Fault::Unended => {
            // An empty last line without its end would be no line.
            damaged.lines.last().filter(|line| !line.text.is_empty())?;
            damaged.unended = true;
        }
        _ => {
            let words: &[&str] = match fault {
                Fault::BitsForm => &["hold", "write"],
                Fault::KindForm => &["seg"],
                _ => &["seg", "mux", "out", "hold", "write", "read"],
            };
            let index = damaged.draw_line(random, words)?;
            spoil(fault, random, &mut damaged.lines[index]);
            damaged.lines[index].fault = Some(FORM);
        }
    }
    Some(())
}

/// Spoils the form of one line.
fn spoil(fault: Fault, random: &mut Random, line: &mut DamagedLine) {
    let fields = line.fields().len();
    match fault {
        Fault::Word => {
            line.replace_field(0, random.pick(&["", "se", "SEG", "segs", " mux", "clk"]))
        }
        Fault::ExtraField => line.replace_field(fields - 1, "0\t0\t0\t0\t0"),
        Fault::EmptyField => line.replace_field(random.between(1, fields - 1), ""),
        Fault::DecimalForm => {
            let wrong = ["00", "01", "+1", "-1", "10000", "1a", " 1", "1 ", "0x1", "1.", "X"];
            line.replace_field(1, random.pick(&wrong));
        }
        Fault::BitsForm => {
            let unknown = if line.word() == "write" { "X" } else { "x" };
            line.replace_field(2, random.pick(&[unknown, "2", "0 1", "0-", "01\u{0}"]));
        }
        Fault::KindForm => line.replace_field(3, random.pick(&["S", "P", "sp", "ss", "0", "q"])),
        Fault::MissingField => {
            // A multiplexer with one input less may still be good, one with one input is not. A
            // segment without its RESET is good.
            let kept = match line.word() {
                "mux" => 4,
                "seg" => 3,
                _ => fields - 1,
            };
            line.text = line.fields()[..kept].join("\t");
        }
        _ => line.text += *random.pick(&["\r", "\t", " ", "\u{0}"]),
    }
}
