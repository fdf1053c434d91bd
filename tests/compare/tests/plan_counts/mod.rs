//! Comparisons of the proved planner with the plain Rust version, and how often each answer came.

use penthluk_compare::expected::{count_numbers, passed};
use penthluk_compare::lent::Lent;
use penthluk_compare::{mark, plan};
use penthluk_reference::brute::{first_filled_plan, least_operations};
use penthluk_reference::generate::random::Random;
use penthluk_reference::limits::{
    MAX_OPERATIONS, MAX_PLAN_BYTES, MAX_STEERING_BITS, SEARCH_ENTRIES,
};
use penthluk_reference::network::{Network, Node};
use penthluk_reference::plan_text::write_plan;
use penthluk_reference::planner::make_plan;
use penthluk_reference::play::check_pass;
use penthluk_reference::reader::read_network;
use penthluk_reference::steering::steering_bits;

/// The lengths of a search space: none, one too few, as many as needed, more.
const SEARCH_LENGTHS: [usize; 4] = [0, SEARCH_ENTRIES - 1, SEARCH_ENTRIES, SEARCH_ENTRIES + 700];

/// The largest network that is tried with every bit string.
const MOST_BITS: usize = 8;

/// One of this many networks is planned with all pairs of lengths; the others with one pair.
pub const ALL_LENGTHS: usize = 16;

/// What came of many comparisons.
#[derive(Default, Debug)]
pub struct Counts {
    networks: usize,
    /// Calls by the number that they answered; 0 is a plan.
    numbers: [usize; 19],
    /// Networks with a plan, by its operations.
    pub operations: [usize; MAX_OPERATIONS + 1],
    /// Networks that were tried with every bit string.
    pub tried: usize,
    /// Networks with a plan of some operations: with two multiplexers on one steering bit; with an
    /// address of two bits; with a steering bit that starts unknown.
    pub shared: usize,
    pub two_bits: usize,
    pub unknown: usize,
}

impl Counts {
    /// Calls both with memory of these lengths and compares the answers and all content.
    #[track_caller]
    pub fn compare(&mut self, text: &[u8], entries: usize, bytes: usize) -> ([usize; 2], Vec<u8>) {
        let (mut search, mut buffer) = (Lent::entries(entries), Lent::bytes(bytes));
        let (mut plain_search, mut plain_buffer) = (search.clone(), buffer.clone());
        let answer = plan(text, search.buffer(), buffer.buffer());
        let expected = make_plan(text, plain_search.buffer(), plain_buffer.buffer());
        let shown = || (entries, bytes, String::from_utf8_lossy(text));
        assert_eq!(answer, count_numbers(&expected), "{:?}", shown());
        assert!(search == plain_search, "search {:?}", shown());
        assert!(buffer == plain_buffer, "plan {:?}", shown());
        if answer[0] != 0 {
            assert!(buffer == Lent::bytes(bytes), "plan {:?}", shown());
        }
        let mut after = Lent::entries(entries);
        if [0, 11, 13].contains(&answer[0]) {
            after.buffer()[..SEARCH_ENTRIES].fill(0);
        }
        assert!(search == after, "search {:?}", shown());
        self.numbers[answer[0]] += 1;
        let written = if answer[0] == 0 { answer[1] } else { 0 };
        (answer, buffer.buffer()[..written].to_vec())
    }

    /// Plans a network, one of many with all pairs of lengths. Gives the answer with full sizes.
    #[track_caller]
    pub fn plan(&mut self, random: &mut Random, text: &[u8]) -> [usize; 2] {
        let all_lengths = self.networks % ALL_LENGTHS == 0;
        self.plan_with(random, text, all_lengths)
    }

    /// Compares with memory of the full sizes, then with all pairs of lengths around what is
    /// needed, or with one of them.
    #[track_caller]
    pub fn plan_with(&mut self, random: &mut Random, text: &[u8], all_lengths: bool) -> [usize; 2] {
        let (answer, written) = self.compare(text, SEARCH_ENTRIES, MAX_PLAN_BYTES);
        if let Ok(network) = read_network(text) {
            self.check(random, text, &network, (answer, &written));
        }
        let needed = if answer[0] == 0 { written.len() } else { random.below(100) };
        let lengths = [0, needed.saturating_sub(1), needed, needed + 1, needed + 1_000];
        if all_lengths {
            for entries in SEARCH_LENGTHS {
                for bytes in lengths {
                    self.compare(text, entries, bytes);
                }
            }
        } else {
            self.compare(text, *random.pick(&SEARCH_LENGTHS), *random.pick(&lengths));
        }
        self.networks += 1;
        answer
    }

    /// Marks and plays a plan, and holds the answer to the searches that try everything.
    #[track_caller]
    fn check(
        &mut self,
        random: &mut Random,
        text: &[u8],
        network: &Network,
        (answer, written): ([usize; 2], &[u8]),
    ) {
        let steering = steering_bits(&network.nodes);
        if answer[0] == 0 {
            let pass = passed(&mark(text, written)).expect("the plan passes");
            assert_eq!(pass.clocks, written.len());
            assert_eq!(check_pass(network, written, &pass, &mut || random.bit()), Ok(()));
            self.operations[pass.operations] += 1;
            if pass.operations > 0 {
                let mut starts =
                    steering.iter().map(|&(segment, bit)| network.start[segment - 1][bit]);
                self.unknown += usize::from(starts.any(|bit| bit.is_none()));
                self.shared += usize::from(shares(network));
                self.two_bits += usize::from(network.nodes.iter().any(|node| inputs(node) > 2));
            }
        }
        if network.bits() <= MOST_BITS && steering.len() <= MAX_STEERING_BITS {
            let least = least_operations(network);
            let first = least.map(|operations| {
                let plan = first_filled_plan(network, operations);
                write_plan(&plan.expect("the filling costs no operation"))
            });
            let given = (answer[0] == 0).then(|| written.to_vec());
            assert_eq!(given, first, "{}", String::from_utf8_lossy(text));
            self.tried += 1;
        }
    }

    /// Each of these numbers was answered at least so often, and no other.
    #[track_caller]
    pub fn answered(&self, least: &[(usize, usize)]) {
        assert!(least.iter().all(|&(number, least)| self.numbers[number] >= least), "{self:?}");
        let calls = self.numbers.iter().sum::<usize>();
        assert_eq!(least.iter().map(|pair| self.numbers[pair.0]).sum::<usize>(), calls, "{self:?}");
    }

    /// Plans of 0, 1, .. operations came at least so often.
    #[track_caller]
    pub fn had_operations(&self, least: &[usize]) {
        assert!(self.operations.iter().zip(least).all(|(count, least)| count >= least), "{self:?}");
    }
}

/// The count of inputs of a multiplexer; 0 for a segment.
fn inputs(node: &Node) -> usize {
    match node {
        Node::Multiplexer { inputs, .. } => inputs.len(),
        Node::Segment { .. } => 0,
    }
}

/// Whether two multiplexers have the same address.
fn shares(network: &Network) -> bool {
    let address = |node: &Node| match node {
        Node::Multiplexer { seg, bit, .. } => Some((*seg, *bit)),
        Node::Segment { .. } => None,
    };
    let mut addresses: Vec<_> = network.nodes.iter().filter_map(address).collect();
    addresses.sort_unstable();
    addresses.windows(2).any(|pair| pair[0] == pair[1])
}
