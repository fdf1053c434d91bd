//! With each node met in turn as the one that feeds scan-out, the proved reader's path length is the count of
//! path bits from scan-in up to and with that node.

use std::collections::BTreeMap;

use penthluk_compare::read;
use penthluk_reference::generate::cases::draw_network_text;
use penthluk_reference::generate::edges::held_chain;
use penthluk_reference::generate::large::{full, large};
use penthluk_reference::generate::long_cases::{draw_long_text, long_random};
use penthluk_reference::generate::long_registers::{longest_choices, longest_row};
use penthluk_reference::generate::path_sum_forms::path_sum_forms;
use penthluk_reference::generate::random::Random;
use penthluk_reference::generate::reset_cases::{draw_reset_text, held_reset_chain, reset_random};
use penthluk_reference::limits::MAX_NETWORK_BITS;
use penthluk_reference::path_sums::{bits_up_to, nodes_met};
use penthluk_reference::reader::read_network;
use penthluk_reference::text::{fields, lines};

/// Texts of each of three kinds.
const TEXTS: u64 = 6_000;

/// Seeds of networks near the limits, six for each.
const LARGE: u64 = 50;

/// The text with this node in its `out` line.
fn fed_by(text: &[u8], node: usize) -> Vec<u8> {
    let out = format!("out\t{node}").into_bytes();
    let line = |line| if fields(line)[0] == b"out" { &out } else { line };
    lines(text).flat_map(|each| [line(each.bytes), b"\n"].concat()).collect()
}

/// How many networks and nodes were compared, and how many networks have each form.
#[derive(Default, Debug)]
struct Counts {
    networks: usize,
    segments: usize,
    multiplexers: usize,
    /// Nodes with a count above 3,900.
    long: usize,
    forms: BTreeMap<&'static str, usize>,
}

impl Counts {
    /// Compares at each node met from the start of an accepted network. No text with another `out` line is
    /// refused: a node met has no higher number than the one that feeds scan-out, so its line names a node and
    /// does not get longer; the other lines do not hang on it; and the walk from there is a part of the
    /// start's.
    #[track_caller]
    fn compare(&mut self, text: &[u8]) {
        let Ok(network) = read_network(text) else { return };
        let met = nodes_met(&network, &network.start);
        let [_, nodes, bits, steering, _] = read(text);
        for &node in &met {
            let count = bits_up_to(&network, &met, node);
            let changed = fed_by(text, node);
            let expected = [0, nodes, bits, steering, count];
            assert_eq!(read(&changed), expected, "{:?}", String::from_utf8_lossy(&changed));
            match network.len(node) {
                0 => self.multiplexers += 1,
                _ => self.segments += 1,
            }
            self.long += usize::from(count > MAX_NETWORK_BITS - 100);
        }
        self.networks += 1;
        for form in path_sum_forms(&network, &network.start) {
            *self.forms.entry(form).or_default() += 1;
        }
    }

    /// So many networks, segments, multiplexers and counts above 3,900 at least, and each of these forms.
    #[track_caller]
    fn at_least(&self, least: [usize; 4], wanted: &[(&str, usize)]) {
        let counts = [self.networks, self.segments, self.multiplexers, self.long];
        assert!(counts.iter().zip(least).all(|(count, least)| *count >= least), "{self:#?}");
        for (form, least) in wanted {
            let count = self.forms.get(form).copied().unwrap_or(0);
            assert!(count >= *least, "{form}: {count} times, {self:#?}");
        }
    }
}

/// A of document 01 with a RESET that opens it: 4 bits from scan-in up to and with the multiplexer.
#[test]
fn open_branch() {
    let text = b"seg\t0\t4\ts\nmux\t3\t0\t0\t1\nseg\t2\t1\ts\t1\nout\t3\n";
    let length = |node| read(&fed_by(text, node))[4];
    assert_eq!([3, 2, 1, 0].map(length), [5, 4, 4, 0]);
    let mut counts = Counts::default();
    counts.compare(text);
    assert_eq!((counts.segments, counts.multiplexers), (2, 1));
}

#[test]
fn generated_texts() {
    let mut counts = Counts::default();
    for seed in 0..TEXTS {
        counts.compare(&draw_network_text(&mut Random::new(seed)));
        counts.compare(&draw_reset_text(&mut reset_random(seed)));
        counts.compare(&draw_long_text(&mut long_random(seed)));
    }
    let wanted = [
        ("128 nodes met", 200),
        ("node passed by", 6_000),
        ("node that is not before scan-out", 450),
        ("multiplexer of two inputs met", 5_000),
        ("multiplexer of three inputs met", 1_200),
        ("multiplexer of four inputs met", 1_500),
        ("multiplexer that feeds scan-out", 3_500),
        ("multiplexer that leads to scan-in", 1_300),
        ("two multiplexers in a row", 2_500),
        ("other input with the same sum", 1_500),
        ("sum above 255", 500),
    ];
    counts.at_least([8_000, 55_000, 17_000, 800], &wanted);
}

/// Networks of up to 128 nodes and 4,000 bits.
#[test]
fn networks_near_the_limits() {
    let mut counts = Counts::default();
    for seed in 0..LARGE {
        let random = &mut Random::new(seed);
        counts.compare(&full().text());
        counts.compare(&large(random).text());
        counts.compare(&longest_row(random).text());
        counts.compare(&longest_choices(random).text());
        counts.compare(&held_chain(random).text());
        counts.compare(&held_reset_chain(random).text());
    }
    let wanted = [
        ("128 nodes met", 140),
        ("node passed by", 55),
        ("multiplexer that leads to scan-in", 5),
        ("two multiplexers in a row", 60),
        ("sum of 4,000", 190),
    ];
    counts.at_least([270, 22_000, 700, 600], &wanted);
}
