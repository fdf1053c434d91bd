//! Time of the proved calls over the time of the plain Rust version, in one run.
//! `cargo run --release --offline --manifest-path tests/compare/Cargo.toml --example speed [NAME]`,
//! with NAME only the rows whose names have it.

mod recoverings;

use std::hint::black_box;
use std::time::{Duration, Instant};

use penthluk_compare::expected::{count_numbers, mark_numbers};
use penthluk_compare::{carry, clocks, mark, plan, read, read_line};
use penthluk_reference::carry::carry as plain_carry;
use penthluk_reference::clocks::write_clocks;
use penthluk_reference::generate::draft::Draft;
use penthluk_reference::generate::edges::plan_line;
use penthluk_reference::generate::large::full;
use penthluk_reference::generate::maze::maze;
use penthluk_reference::generate::random::Random;
use penthluk_reference::generate::rounds::many_rounds;
use penthluk_reference::generate::sib::{sib_tree, Size};
use penthluk_reference::generate::tiny::tiny;
use penthluk_reference::limits::{MAX_HOLD_BYTES, MAX_PLAN_BYTES, SEARCH_ENTRIES};
use penthluk_reference::marker;
use penthluk_reference::planner::make_plan;
use penthluk_reference::programs;
use penthluk_reference::reader::read_network;

/// How often a case is run.
#[derive(Clone, Copy)]
struct Rounds {
    rounds: usize,
    calls: usize,
}

/// Many short rounds: the least time is then one that nothing else on the machine disturbed.
const SHORT: Rounds = Rounds { rounds: 400, calls: 10 };

/// A case that is many calls in itself.
const LONG: Rounds = Rounds { rounds: 25, calls: 1 };

/// The time of a round of calls.
fn round(calls: usize, call: &mut dyn FnMut()) -> Duration {
    let start = Instant::now();
    for _ in 0..calls {
        call();
    }
    start.elapsed()
}

/// Prints the least time of some rounds of the proved call, its bytes a second and its ratio to the
/// least time of the plain call. The rounds of the two take turns.
fn compare(
    name: &str,
    bytes: usize,
    Rounds { rounds, calls }: Rounds,
    mut proved: impl FnMut(),
    mut plain: impl FnMut(),
) {
    if !std::env::args().nth(1).is_none_or(|wanted| name.contains(&wanted)) {
        return;
    }
    let mut least = [Duration::MAX; 2];
    for _ in 0..rounds {
        least[0] = least[0].min(round(calls, &mut proved));
        least[1] = least[1].min(round(calls, &mut plain));
    }
    let [proved, plain] = least.map(|time| time.as_secs_f64() / calls as f64);
    println!(
        "{name}: {bytes} bytes, {:.1} us a call, {:.0} MB/s, plain {:.1} us, ratio {:.2}",
        proved * 1e6,
        bytes as f64 / proved / 1e6,
        plain * 1e6,
        proved / plain
    );
}

/// The lengths of segments of `len` bits, the last one perhaps shorter, that have 4,000 bits together.
fn lengths(len: usize) -> Vec<usize> {
    (0..4_000).step_by(len).map(|before| len.min(4_000 - before)).collect()
}

/// Most bits: 4,000 in segments of `len`, then three multiplexers, each segment with start bits in its
/// RESET or in a `hold` line.
fn most_bits(len: usize, reset: bool) -> Vec<u8> {
    let mut text = String::new();
    let lengths = lengths(len);
    for (number, &len) in lengths.iter().enumerate() {
        text += &format!("seg\t{number}\t{len}\ts");
        text += &if reset { format!("\t{}\n", "0".repeat(len)) } else { "\n".to_string() };
    }
    for bit in 0..3 {
        text += &format!("mux\t1\t{bit}\t{}\t0\n", lengths.len() + bit);
    }
    text += &format!("out\t{}\n", lengths.len() + 3);
    for (index, &len) in lengths.iter().enumerate().filter(|_| !reset) {
        text += &format!("hold\t{}\t{}\n", index + 1, "0".repeat(len));
    }
    text += &format!("read\t2\nread\t3\nwrite\t4\t{0}\nwrite\t5\t{0}\n", "1".repeat(len));
    text.into_bytes()
}

/// Most multiplexers of four inputs.
fn most_multiplexers() -> Vec<u8> {
    let mut text = String::from("seg\t0\t32\ts\n");
    for number in 1..128 {
        text += &format!("mux\t1\t{}\t{number}\t{number}\t0\t{number}\n", number % 31);
    }
    (text + "out\t128\n").into_bytes()
}

/// As many bytes as a text may have, refused at its last line.
fn most_bytes() -> Vec<u8> {
    let mut text = String::from("seg\t0\t32\ts\nout\t1\n");
    let line = format!("hold\t1\t{}\n", "X".repeat(32));
    text += &line;
    let fill = format!("write\t1\t{}\n", "1".repeat(16_384 - text.len() - 9));
    (text + &fill).into_bytes()
}

/// 128 segments of 31 or 32 bits in a row, four of them read: 4,000 bits.
fn longest_path() -> Vec<u8> {
    let mut text = String::new();
    for number in 0..128 {
        text += &format!("seg\t{number}\t{}\ts\n", if number < 32 { 32 } else { 31 });
    }
    (text + "out\t128\nread\t1\nread\t50\nread\t100\nread\t128\n").into_bytes()
}

/// 62 segments of 64 bits and one of 32 in a row, four of them read: 4,000 bits.
fn longest_registers() -> Vec<u8> {
    let lengths = lengths(64).into_iter().enumerate();
    let nodes: String = lengths.map(|(from, len)| format!("seg\t{from}\t{len}\ts\n")).collect();
    (nodes + "out\t63\nread\t1\nread\t25\nread\t50\nread\t63\n").into_bytes()
}

/// 128 nodes, of which few are on the path: 63 pairs of a segment of 32 bits and a multiplexer past it,
/// steered by a segment of one bit, and a target beside it.
fn short_path() -> Vec<u8> {
    let mut text = String::from("seg\t0\t1\ts\nseg\t1\t4\ts\n");
    for pair in 0..63 {
        let from = 2 * pair + 2;
        text += &format!("seg\t{from}\t32\ts\nmux\t1\t0\t{from}\t{}\n", from + 1);
    }
    (text + "out\t128\nread\t2\n").into_bytes()
}

/// Sixteen operations of 4,000 bits: 64,080 bytes.
fn longest_plan() -> Vec<u8> {
    let bits: String = (0..4_000).map(|bit| if bit % 3 == 0 { '1' } else { '0' }).collect();
    format!("csu\t{bits}\n").repeat(16).into_bytes()
}

/// Six SIBs in a row, each with a register of `len` bits; four registers are targets.
fn sib_chain(len: usize) -> Vec<u8> {
    let mut text = String::new();
    for sib in 0..6 {
        let from = 3 * sib;
        let (register, multiplexer, bit) = (from + 1, from + 2, from + 3);
        text += &format!("seg\t{from}\t{len}\ts\nmux\t{bit}\t0\t{from}\t{register}\n");
        text += &format!("seg\t{multiplexer}\t1\ts\n");
    }
    let ones = "1".repeat(len);
    text += &format!("out\t18\nread\t1\nwrite\t4\t{ones}\nread\t10\nwrite\t16\t{ones}\n");
    text.into_bytes()
}

/// The same with one steering segment of 64 bits, of which the six highest are the addresses.
fn high_addresses() -> Vec<u8> {
    let mut text = String::from("seg\t0\t64\ts\n");
    for sib in 0..6 {
        let from = 2 * sib + 1;
        text += &format!("seg\t{from}\t64\ts\nmux\t1\t{}\t{from}\t{}\n", 58 + sib, from + 1);
    }
    let ones = "1".repeat(64);
    text += &format!("out\t13\nread\t2\nwrite\t4\t{ones}\nread\t8\nwrite\t12\t{ones}\n");
    text.into_bytes()
}

fn readings() {
    for (name, text) in [
        ("read, 125 segments of 32 bits, all held", most_bits(32, false)),
        ("read, 125 segments of 32 bits, all with RESET", most_bits(32, true)),
        ("read, 62 segments of 64 bits and one of 32, all held", most_bits(64, false)),
        ("read, 62 segments of 64 bits and one of 32, all with RESET", most_bits(64, true)),
        ("read, 127 multiplexers of four inputs", most_multiplexers()),
        ("read, the longest text, refused at its last line", most_bytes()),
    ] {
        assert_eq!(read_line(read(&text)), programs::read(&text));
        let proved = || _ = black_box(read(black_box(&text)));
        let plain = || _ = black_box(read_network(black_box(&text)));
        compare(name, text.len(), SHORT, proved, plain);
    }
}

fn marks() {
    let bits_5 = plan_line(5);
    for (name, network, plan) in [
        ("mark, 16 operations of 4,000 bits", longest_path(), longest_plan()),
        ("mark, the same in segments of 64 bits", longest_registers(), longest_plan()),
        ("mark, one operation of 5 bits on 128 nodes", short_path(), bits_5.clone()),
        ("mark, 16 operations of 5 bits on 128 nodes", short_path(), bits_5.repeat(16)),
    ] {
        let numbers = mark(&network, &plan);
        assert_eq!(numbers, mark_numbers(&marker::mark(&network, &plan)));
        assert_eq!(numbers[0], 0, "{name}");
        let proved = || _ = black_box(mark(black_box(&network), black_box(&plan)));
        let plain = || _ = black_box(marker::mark(black_box(&network), black_box(&plan)));
        compare(name, network.len() + plan.len(), SHORT, proved, plain);
    }
}

/// The buffer is lent again and again and not cleared in between.
fn carryings() {
    let (small, two) =
        (&b"seg\t0\t4\ts\nmux\t3\t0\t0\t1\nseg\t2\t1\ts\nout\t3\n"[..], b"csu\t1\ncsu\t00101\n");
    for (name, network, plan) in [
        ("carry, 16 operations of 4,000 bits", longest_path(), longest_plan()),
        ("carry, the same in segments of 64 bits", longest_registers(), longest_plan()),
        ("carry, one operation of 5 bits on 128 nodes", short_path(), plan_line(5)),
        ("carry, two operations on 3 nodes", small.to_vec(), two.to_vec()),
    ] {
        let [mut holds, mut plain_holds] = [(); 2].map(|_| vec![0; MAX_HOLD_BYTES]);
        let numbers = carry(&network, &plan, &mut holds);
        let expected = plain_carry(&network, &plan, &mut plain_holds);
        assert_eq!(numbers, count_numbers(&expected));
        assert!(numbers[0] == 0 && holds == plain_holds, "{name}");
        let proved = || _ = black_box(carry(black_box(&network), black_box(&plan), &mut holds));
        let plain =
            || _ = black_box(plain_carry(black_box(&network), black_box(&plan), &mut plain_holds));
        compare(name, network.len() + plan.len() + numbers[1], SHORT, proved, plain);
    }
}

/// The buffers are lent again and again and not cleared in between.
fn clock_writings() {
    for (name, plan) in [
        ("clocks, 16 operations of 4,000 bits", longest_plan()),
        ("clocks, 16 operations of 5 bits", plan_line(5).repeat(16)),
    ] {
        let [mut tms, mut tdi, mut plain_tms, mut plain_tdi] = [(); 4].map(|_| vec![0; plan.len()]);
        let numbers = clocks(&plan, &mut tms, &mut tdi);
        let expected = write_clocks(&plan, &mut plain_tms, &mut plain_tdi);
        assert_eq!(numbers, count_numbers(&expected));
        assert!(tms == plain_tms && tdi == plain_tdi);
        let proved = || _ = black_box(clocks(black_box(&plan), &mut tms, &mut tdi));
        let plain =
            || _ = black_box(write_clocks(black_box(&plan), &mut plain_tms, &mut plain_tdi));
        compare(name, plan.len(), SHORT, proved, plain);
    }
}

/// The memory is lent again and again and not cleared in between.
fn plans() {
    for (name, network) in [
        (
            "plan, 16 operations of 3,000 bits, 6 steering bits, 4 targets, 128 nodes",
            many_rounds().text(),
        ),
        ("plan, 4,000 bits, 6 steering bits, 4 targets, 128 nodes", full().text()),
        ("plan, a chain of 6 SIBs, 4 targets", sib_chain(32)),
        ("plan, a chain of 6 SIBs with registers of 64 bits, 4 targets", sib_chain(64)),
        (
            "plan, six registers of 64 bits past which bits 58 to 63 lead, 4 targets",
            high_addresses(),
        ),
        ("plan, the empty one of `out 0`", b"out\t0\n".to_vec()),
    ] {
        let [mut search, mut plain_search] = [(); 2].map(|_| vec![0; SEARCH_ENTRIES]);
        let [mut bytes, mut plain_bytes] = [(); 2].map(|_| vec![0; MAX_PLAN_BYTES]);
        let numbers = plan(&network, &mut search, &mut bytes);
        let expected = make_plan(&network, &mut plain_search, &mut plain_bytes);
        assert_eq!(numbers, count_numbers(&expected));
        assert!(numbers[0] == 0 && bytes == plain_bytes, "{name}");
        let proved = || _ = black_box(plan(black_box(&network), &mut search, &mut bytes));
        let plain =
            || _ = black_box(make_plan(black_box(&network), &mut plain_search, &mut plain_bytes));
        compare(name, network.len() + numbers[1], SHORT, proved, plain);
    }
}

/// A thousand random networks.
fn thousand(seed: u64, draw: impl Fn(&mut Random) -> Draft) -> Vec<Vec<u8>> {
    let random = &mut Random::new(seed);
    (0..1_000).map(|_| draw(random).text()).collect()
}

/// Whole sets of small networks, many of them refused.
fn sets_of_plans() {
    for (name, networks) in [
        ("plan, 1,000 tiny networks", thousand(1, |random| tiny(random, 7))),
        (
            "plan, 1,000 trees of SIBs",
            thousand(2, |random| sib_tree(random, Size { depth: 6, sibs: 6, len: 32 })),
        ),
        ("plan, 1,000 trees of multiplexers", thousand(3, |random| maze(random, 3, 4))),
    ] {
        let [mut search, mut plain_search] = [(); 2].map(|_| vec![0; SEARCH_ENTRIES]);
        let [mut bytes, mut plain_bytes] = [(); 2].map(|_| vec![0; MAX_PLAN_BYTES]);
        let size = networks.iter().map(Vec::len).sum();
        let proved = || {
            for network in &networks {
                black_box(plan(black_box(network), &mut search, &mut bytes));
            }
        };
        let plain = || {
            for network in &networks {
                _ = black_box(make_plan(black_box(network), &mut plain_search, &mut plain_bytes));
            }
        };
        compare(name, size, LONG, proved, plain);
    }
}

fn main() {
    readings();
    marks();
    carryings();
    clock_writings();
    plans();
    sets_of_plans();
    recoverings::recoverings();
}
