//! "Any text accepted earlier must give the same plan, mark and clocks." The clock writer gets a plan text
//! only. The earlier reader is the reader with the greatest LEN of before Change 4.

mod common;

use common::{plan_text, refused};
use penthluk_reference::carry::carried;
use penthluk_reference::generate::carry_cases::carry_case;
use penthluk_reference::generate::cases::{case, Case};
use penthluk_reference::generate::long_cases::long_case;
use penthluk_reference::generate::reset_cases::reset_case;
use penthluk_reference::limits::{EARLIER_SEGMENT_BITS, MAX_PLAN_BYTES, SEARCH_ENTRIES};
use penthluk_reference::marker::{mark, mark_plan};
use penthluk_reference::network::{Configuration, Network, Node};
use penthluk_reference::network_line::{parse_line, NetworkLine};
use penthluk_reference::plan_text::parse_plan;
use penthluk_reference::planner::plan_network;
use penthluk_reference::reader::{read_network, read_network_up_to};
use penthluk_reference::refusal::{Refusal, BOUNDS};
use penthluk_reference::text::{lines, written};

fn read_earlier(text: &[u8]) -> Result<Network, Refusal> {
    read_network_up_to(EARLIER_SEGMENT_BITS, text)
}

/// The plan, the mark and the `hold` lines for a network and a plan text are those for the two texts.
fn check_answers(earlier: &Network, network: &[u8], plan: &[u8]) {
    let mut planned = vec![0; MAX_PLAN_BYTES];
    let result = plan_network(earlier, &mut [0; SEARCH_ENTRIES], &mut planned);
    let planned = result.map(|bytes| planned[..bytes].to_vec());
    assert_eq!(plan_text(network), planned);
    for plan in [Ok(plan.to_vec()), planned].into_iter().flatten() {
        let marked = parse_plan(&plan).and_then(|operations| mark_plan(earlier, &operations));
        assert_eq!(mark(network, &plan), marked.clone().map(|(pass, _)| pass));
        assert_eq!(carried(network, &plan), marked.map(|(_, last)| hold_lines(earlier, &last)));
    }
}

fn hold_lines(network: &Network, last: &Configuration) -> Vec<u8> {
    let mut segments: Vec<usize> = (1..=network.nodes.len()).collect();
    segments.retain(|&node| network.len(node) > 0);
    let line = |&segment: &usize| format!("hold\t{segment}\t{}\n", written(&last[segment - 1]));
    segments.iter().map(line).collect::<String>().into_bytes()
}

/// Whether a line is a segment whose one fault was a LEN of 33 to 64.
fn was_too_long(network: &[u8], number: usize) -> bool {
    let line = lines(network).nth(number - 1).expect("the line that is refused");
    match parse_line(line.bytes) {
        Some(NetworkLine::Node(Node::Segment { from, len, .. })) => {
            from < number && (33..=64).contains(&len)
        }
        _ => false,
    }
}

/// How many texts were accepted both times, accepted since the change, refused otherwise since then, and
/// refused alike.
#[derive(Default, Debug)]
struct Counts {
    both: usize,
    since: usize,
    otherwise: usize,
    alike: usize,
}

impl Counts {
    fn check(&mut self, network: &[u8], plan: &[u8]) {
        let (earlier, now) = (read_earlier(network), read_network(network));
        match earlier {
            Ok(earlier) => {
                assert_eq!(now.as_ref(), Ok(&earlier));
                check_answers(&earlier, network, plan);
                self.both += 1;
            }
            // The first segment of more than 32 bits, or a line that is refused for something else.
            Err(Refusal { number: BOUNDS, place }) if was_too_long(network, place) => {
                assert_ne!(now, refused(BOUNDS, place));
                match now {
                    Ok(network) => {
                        let longer = |&node: &usize| network.len(node) > EARLIER_SEGMENT_BITS;
                        assert_eq!((1..=network.nodes.len()).find(longer), Some(place));
                        self.since += 1;
                    }
                    Err(_) => self.otherwise += 1,
                }
            }
            Err(refusal) => {
                assert_eq!(now, Err(refusal));
                self.alike += 1;
            }
        }
    }
}

fn check_cases(cases: u64, draw: fn(u64) -> Case) -> Counts {
    let mut counts = Counts::default();
    for seed in 0..cases {
        let case = draw(seed);
        counts.check(&case.network, &case.plan);
    }
    counts
}

#[test]
fn generated_texts() {
    let counts = check_cases(4_000, case);
    assert!(counts.both > 1_300 && counts.since > 400, "{counts:?}");
    assert!(counts.otherwise > 100 && counts.alike > 800, "{counts:?}");
}

#[test]
fn generated_texts_with_resets() {
    let counts = check_cases(4_000, reset_case);
    assert!(counts.both > 1_300 && counts.since > 400, "{counts:?}");
    assert!(counts.otherwise > 100 && counts.alike > 800, "{counts:?}");
}

#[test]
fn texts_with_long_registers() {
    let counts = check_cases(8_000, long_case);
    assert!(counts.both > 400 && counts.since > 2_000, "{counts:?}");
    assert!(counts.otherwise > 2_000 && counts.alike > 500, "{counts:?}");
}

#[test]
fn texts_that_go_on() {
    let mut counts = Counts::default();
    for seed in 0..2_000 {
        let exercise = carry_case(seed);
        counts.check(&exercise.network, &exercise.plan);
    }
    assert!(counts.both > 500 && counts.since > 300, "{counts:?}");
    assert!(counts.alike > 150, "{counts:?}");
}

/// "65 is refused as 33 was": at its line, with what stands beside it and behind it.
#[test]
fn refused_as_33_was() {
    let lines = [
        &["seg 0 LEN s", "out 1"][..],
        &["seg 0 LEN p", "out 1"],
        &["seg 0 1 s", "seg 1 LEN s 0", "out 2"],
        &["seg 0 1 s", "seg 1 LEN s", "?"],
        &["seg 1 LEN s", "out 1"],
        &["seg 0 LEN q", "out 1"],
        &["seg 0 LEN s"],
        &["out 0", "seg 0 LEN s"],
        &["mux 2 65 0 0", "seg 1 LEN s", "out 2"],
        &["mux 2 0 0 0", "seg 1 LEN s", "out 2", "hold 2 0"],
    ];
    let mut places = Vec::new();
    for lines in lines {
        let lines = lines.join("\n").replace(' ', "\t") + "\n";
        let with = |len: &str| lines.replace("LEN", len).into_bytes();
        let (earlier, now) = (read_earlier(&with("33")), read_network(&with("65")));
        assert_eq!(now, earlier);
        places.extend(now.err().map(|refusal| (refusal.number, refusal.place)));
    }
    let expected = [2, 2, 2, 2, 2, 1, 2, 4, 2, 2].into_iter().zip([1, 1, 2, 2, 1, 1, 1, 2, 2, 2]);
    assert_eq!(places, expected.collect::<Vec<_>>());
}
