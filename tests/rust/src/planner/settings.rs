//! Settings of the steering bits, each 0, 1 or X, and the path under each setting.
//!
//! A setting is a number in base three, one digit for each steering bit: 0, 1, or 2 for X.

use crate::limits::{MAX_STEERING_BITS, MAX_TARGETS, SEARCH_ENTRIES};
use crate::network::{Bit, Network, Node};
use crate::steering::address_width;
use crate::text::bit_byte;

/// The count of settings of 6 steering bits.
const SETTINGS: usize = 729;
const _: () = assert!(SETTINGS << MAX_TARGETS == SEARCH_ENTRIES);

/// The weight of each digit.
const WEIGHTS: [u16; MAX_STEERING_BITS] = [1, 3, 9, 27, 81, 243];

/// The sum of the weights of each set of steering bits.
const WEIGHT_SUMS: [u16; 1 << MAX_STEERING_BITS] = weight_sums();

type Digits = [u8; MAX_STEERING_BITS];

/// What an operation can do under a setting. Sets of steering bits and of targets are masks.
#[derive(Clone, Copy, Default)]
pub struct View {
    known: bool,
    /// Whether the configuration is valid; the rest has meaning only if it is.
    pub valid: bool,
    /// The steering bits on the path.
    pub steering: u8,
    /// The targets on the path.
    pub targets: u8,
    /// The setting with 0 for each steering bit on the path.
    pub others: u16,
    pub length: u16,
}

impl View {
    /// The setting after an operation that loads 1 into the steering bits of `ones` and 0 into
    /// the others on the path.
    pub fn after(&self, ones: u8) -> u16 {
        self.others + WEIGHT_SUMS[usize::from(ones)]
    }

    /// The settings after every operation, valid or not: one for each set of steering bits on the
    /// path.
    pub fn next_settings(self) -> impl Iterator<Item = u16> {
        let mut ones = Some(self.steering);
        std::iter::from_fn(move || {
            let now = ones?;
            ones = now.checked_sub(1).map(|below| below & self.steering);
            Some(self.after(now))
        })
    }
}

/// A node with all that the walk over settings needs.
enum Step {
    Segment(Segment),
    Multiplexer { low: usize, high: Option<usize>, inputs: Vec<usize> },
}

/// A segment as an operation loads it.
struct Segment {
    from: usize,
    /// The bits to shift, as bytes: the write target's, or 0.
    filling: Vec<u8>,
    /// The bits that steer, with their numbers among the steering bits, in rising order.
    steering: Vec<(usize, usize)>,
    targets: u8,
}

/// The network as seen from its steering bits.
pub struct Settings {
    steps: Vec<Step>,
    out: usize,
    pub start: u16,
    /// The mask of all targets.
    pub all_targets: u8,
    views: [View; SETTINGS],
}

impl Settings {
    pub fn new(network: &Network, steering: &[(usize, usize)]) -> Settings {
        let digit = |bit: Bit| bit.map_or(2, u16::from);
        let start_bits = steering.iter().map(|&(seg, bit)| network.start[seg - 1][bit]);
        let start = start_bits.zip(WEIGHTS).map(|(bit, weight)| digit(bit) * weight).sum();
        let mut settings = Settings {
            steps: (1..=network.nodes.len()).map(|n| step(network, steering, n)).collect(),
            out: network.out,
            start,
            all_targets: ((1u16 << network.targets.len()) - 1) as u8,
            views: [View::default(); SETTINGS],
        };
        settings.view(start);
        settings
    }

    /// The view of a setting, walked at most once.
    pub fn view(&mut self, setting: u16) -> View {
        let stored = self.views[usize::from(setting)];
        if stored.known {
            return stored;
        }
        let mut view = View { known: true, ..View::default() };
        view.valid = self.walk(setting, |segment| {
            for &(_, number) in &segment.steering {
                view.steering |= 1 << number;
            }
            view.targets |= segment.targets;
            view.length += segment.filling.len() as u16;
        });
        let digits = digits(setting);
        let on_path = (0..MAX_STEERING_BITS).filter(|&number| view.steering >> number & 1 == 1);
        view.others = setting - on_path.map(|n| u16::from(digits[n]) * WEIGHTS[n]).sum::<u16>();
        self.views[usize::from(setting)] = view;
        view
    }

    /// The path length of a setting whose view was taken before.
    pub fn path_length(&self, setting: u16) -> usize {
        usize::from(self.views[usize::from(setting)].length)
    }

    /// The steering bits on the path in the order of their places.
    pub fn steering_in_place_order(&self, setting: u16) -> Vec<usize> {
        let mut order = Vec::new();
        self.walk(setting, |segment| order.extend(segment.steering.iter().map(|pair| pair.1)));
        order
    }

    /// Writes the scan-in bits of the operation from one setting to the next.
    pub fn fill(&self, setting: u16, next: u16, bits: &mut [u8]) {
        let digits = digits(next);
        let mut place = 0;
        self.walk(setting, |segment| {
            let own = &mut bits[place..place + segment.filling.len()];
            own.copy_from_slice(&segment.filling);
            for &(bit, number) in &segment.steering {
                own[bit] = b'0' + digits[number];
            }
            place += own.len();
        });
    }

    /// Goes over the segments on the path; false if the configuration is not valid.
    fn walk(&self, setting: u16, mut meet: impl FnMut(&Segment)) -> bool {
        let digits = digits(setting);
        let mut number = self.out;
        while number != 0 {
            match &self.steps[number - 1] {
                Step::Segment(segment) => {
                    meet(segment);
                    number = segment.from;
                }
                Step::Multiplexer { low, high, inputs } => {
                    let high = high.map_or(0, |high| digits[high]);
                    if digits[*low] == 2 || high == 2 {
                        return false;
                    }
                    match inputs.get(usize::from(digits[*low] + 2 * high)) {
                        Some(&input) => number = input,
                        None => return false,
                    }
                }
            }
        }
        true
    }
}

/// The digits of a setting.
fn digits(setting: u16) -> Digits {
    let mut rest = setting;
    [(); MAX_STEERING_BITS].map(|_| {
        let digit = rest % 3;
        rest /= 3;
        digit as u8
    })
}

const fn weight_sums() -> [u16; 1 << MAX_STEERING_BITS] {
    let mut sums = [0; 1 << MAX_STEERING_BITS];
    let mut set = 1;
    while set < sums.len() {
        // The set without its lowest member, and that member's weight.
        sums[set] = sums[set & (set - 1)] + WEIGHTS[set.trailing_zeros() as usize];
        set += 1;
    }
    sums
}

/// The step of one node.
fn step(network: &Network, steering: &[(usize, usize)], number: usize) -> Step {
    match &network.nodes[number - 1] {
        Node::Multiplexer { seg, bit, inputs } => {
            let position = |bit| steering.iter().position(|&pair| pair == (*seg, bit));
            let low = position(*bit).expect("every address bit is among the steering bits");
            let high = if address_width(inputs.len()) == 2 { position(bit + 1) } else { None };
            Step::Multiplexer { low, high, inputs: inputs.clone() }
        }
        Node::Segment { from, len, .. } => {
            let own = steering.iter().enumerate().filter(|(_, &(segment, _))| segment == number);
            let filling = match network.write_bits(number) {
                Some(bits) => bits.iter().map(|&bit| bit_byte(bit)).collect(),
                None => vec![b'0'; *len],
            };
            let targets = network.targets.iter().enumerate();
            let mask = |(index, _)| 1u8 << index;
            Step::Segment(Segment {
                from: *from,
                filling,
                steering: own.map(|(index, &(_, bit))| (bit, index)).collect(),
                targets: targets.filter(|(_, t)| t.segment() == number).map(mask).sum(),
            })
        }
    }
}
