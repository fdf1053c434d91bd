//! Lengths of segments, and addresses in long ones.

use super::random::Random;
use crate::limits::{EARLIER_SEGMENT_BITS, MAX_SEGMENT_BITS};

/// The greatest LEN, the one before Change 4, and lengths beside them.
pub const EDGE_LENGTHS: [usize; 5] = [
    EARLIER_SEGMENT_BITS - 1,
    EARLIER_SEGMENT_BITS,
    EARLIER_SEGMENT_BITS + 1,
    MAX_SEGMENT_BITS - 1,
    MAX_SEGMENT_BITS,
];

/// A length from 1 to `most`; where it may be above 32, often one of these.
pub fn draw_len(random: &mut Random, most: usize) -> usize {
    if most > EARLIER_SEGMENT_BITS && random.percent(40) {
        (*random.pick(&EDGE_LENGTHS)).min(most)
    } else {
        random.between(1, most)
    }
}

/// The BIT of an address, at most `highest` and often that.
pub fn draw_address(random: &mut Random, highest: usize) -> usize {
    let bits = [0, EARLIER_SEGMENT_BITS - 1, EARLIER_SEGMENT_BITS, highest, highest];
    (*random.pick(&bits)).min(highest)
}
