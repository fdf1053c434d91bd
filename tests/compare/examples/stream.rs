//! A stream of texts through the proved calls, each answer and all lent memory held against the
//! plain Rust version's:
//! `cargo run --release --offline --manifest-path tests/compare/Cargo.toml --example stream`, with
//! the count of pairs of texts and a seed behind `--`; a million pairs and seed 1 without. A pair that
//! brings an answer not seen before is kept, and kept pairs are changed again.

use std::collections::HashSet;

use penthluk_compare::expected::{count_numbers, mark_numbers};
use penthluk_compare::lent::Lent;
use penthluk_compare::{carry, clocks, mark, plan, read, read_line};
use penthluk_reference::carry::carry as plain_carry;
use penthluk_reference::clocks::write_clocks;
use penthluk_reference::generate::cases::{case, Case};
use penthluk_reference::generate::random::Random;
use penthluk_reference::generate::reset_cases::reset_case;
use penthluk_reference::planner::make_plan;
use penthluk_reference::{marker, programs};

/// Bytes that the texts are made of, and some that they are not.
const BYTES: &[u8] = b"0123456789X\t\nsegmuxoutholdreadwritecsp \r\0\xff";

/// The most kept pairs.
const KEPT: usize = 20_000;

/// A byte or a part of the text changed.
fn change(random: &mut Random, text: &mut Vec<u8>, other: &[u8]) {
    let at = random.below(text.len() + 1);
    let byte = BYTES[random.below(BYTES.len())];
    match random.below(8) {
        0 if at < text.len() => text[at] = byte,
        1 if at < text.len() => _ = text.remove(at),
        2 => text.insert(at, byte),
        3 => text.truncate(at),
        4 => swap_lines(random, text),
        5 => repeat_line(random, text),
        6 => {
            let from = random.below(other.len() + 1);
            let to = from + random.below(other.len() - from + 1).min(40);
            text.splice(at..at, other[from..to].iter().copied());
        }
        _ => change_number(random, text),
    }
}

fn lines(text: &[u8]) -> Vec<Vec<u8>> {
    text.split_inclusive(|&byte| byte == b'\n').map(<[u8]>::to_vec).collect()
}

fn swap_lines(random: &mut Random, text: &mut Vec<u8>) {
    let mut lines = lines(text);
    if !lines.is_empty() {
        let [a, b] = [(); 2].map(|_| random.below(lines.len()));
        lines.swap(a, b);
        *text = lines.concat();
    }
}

fn repeat_line(random: &mut Random, text: &mut Vec<u8>) {
    let mut lines = lines(text);
    if !lines.is_empty() {
        let [from, to] = [(); 2].map(|_| random.below(lines.len()));
        lines.insert(to, lines[from].clone());
        *text = lines.concat();
    }
}

/// A run of digits, where there is one, made another number.
fn change_number(random: &mut Random, text: &mut Vec<u8>) {
    let digits: Vec<usize> = (0..text.len()).filter(|&at| text[at].is_ascii_digit()).collect();
    if let Some(&start) = digits.get(random.below(digits.len().max(1))) {
        let end = (start..text.len()).find(|&at| !text[at].is_ascii_digit()).unwrap_or(text.len());
        let number = [0, 1, 2, 3, 4, 31, 32, 33, 127, 128, 129, 4_000][random.below(12)];
        text.splice(start..end, number.to_string().into_bytes());
    }
}

/// The marker's number for the pair, and whether the answers differ from those of the pairs before.
/// The clock writer and `carry` are called too, and the planner for one pair in eight.
fn compare(pair: &Case, step: u64, seen: &mut HashSet<[usize; 8]>) -> (usize, bool) {
    let Case { network, plan, .. } = pair;
    let reading = read(network);
    assert_eq!(read_line(reading), programs::read(network), "{pair:?}");
    let answer = mark(network, plan);
    assert_eq!(answer, mark_numbers(&marker::mark(network, plan)), "{pair:?}");
    compare_clocks(pair);
    compare_lines(pair);
    if step % 8 == 0 {
        compare_plans(pair);
    }
    let [a, b, c, d, e] = reading;
    (answer[0], seen.insert([a, b, c, d, e, answer[0], answer[1], answer[3]]))
}

fn compare_clocks(pair: &Case) {
    let (mut tms, mut tdi) = (Lent::bytes(pair.tms_room), Lent::bytes(pair.tdi_room));
    let (mut plain_tms, mut plain_tdi) = (tms.clone(), tdi.clone());
    let answer = clocks(&pair.plan, tms.buffer(), tdi.buffer());
    let expected = write_clocks(&pair.plan, plain_tms.buffer(), plain_tdi.buffer());
    assert_eq!(answer, count_numbers(&expected), "{pair:?}");
    assert!(tms == plain_tms && tdi == plain_tdi, "{pair:?}");
}

/// The lines of what a passed plan leaves, with the room for a plan.
fn compare_lines(pair: &Case) {
    let mut holds = Lent::bytes(pair.plan_room);
    let mut plain_holds = holds.clone();
    let answer = carry(&pair.network, &pair.plan, holds.buffer());
    let expected = plain_carry(&pair.network, &pair.plan, plain_holds.buffer());
    assert_eq!(answer, count_numbers(&expected), "{pair:?}");
    assert!(holds == plain_holds, "{pair:?}");
}

fn compare_plans(pair: &Case) {
    let (mut search, mut bytes) = (Lent::entries(pair.search), Lent::bytes(pair.plan_room));
    let (mut plain_search, mut plain_bytes) = (search.clone(), bytes.clone());
    let answer = plan(&pair.network, search.buffer(), bytes.buffer());
    let expected = make_plan(&pair.network, plain_search.buffer(), plain_bytes.buffer());
    assert_eq!(answer, count_numbers(&expected), "{pair:?}");
    assert!(search == plain_search && bytes == plain_bytes, "{pair:?}");
}

fn main() {
    let mut arguments = std::env::args().skip(1).map(|word| word.parse().expect("a number"));
    let pairs = arguments.next().unwrap_or(1_000_000);
    let seed = arguments.next().unwrap_or(1);
    let random = &mut Random::new(seed);
    let mut kept: Vec<Case> = Vec::new();
    let mut seen = HashSet::new();
    let mut numbers = [0usize; 19];
    for step in 0..pairs {
        let mut pair = if kept.is_empty() || random.below(8) == 0 {
            let draw = if step % 3 == 2 { reset_case } else { case };
            draw(seed.wrapping_mul(1_000_003).wrapping_add(step))
        } else {
            kept[random.below(kept.len())].clone()
        };
        if !kept.is_empty() {
            let other = kept[random.below(kept.len())].clone();
            // A changed network is mostly refused, so that most stay as they are.
            for _ in 0..random.below(8).saturating_sub(5) {
                change(random, &mut pair.network, &other.network);
            }
            for _ in 0..random.below(6).saturating_sub(2) {
                change(random, &mut pair.plan, &other.plan);
            }
        }
        let (number, new) = compare(&pair, step, &mut seen);
        numbers[number] += 1;
        if new && kept.len() < KEPT {
            kept.push(pair);
        } else if new {
            kept[random.below(KEPT)] = pair;
        }
    }
    println!("{pairs} pairs of texts agree, {} answers told apart", seen.len());
    println!("marks by number, 0 for a pass: {numbers:?}");
}
