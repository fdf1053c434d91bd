//! Unknown steering bits, where the start is valid without them.

use super::draft::{Draft, Entry};
use super::random::Random;
use crate::path::is_valid;
use crate::reader::read_network;
use crate::steering::{is_steering_segment, steering_bits};
use crate::text::written;

/// Makes most of the steering bits unknown that the start's walk does not need. A network that is
/// not accepted stays as it is.
pub fn make_unknown(random: &mut Random, draft: &mut Draft) {
    let Ok(network) = read_network(&draft.text()) else { return };
    let mut start = network.start.clone();
    for (segment, bit) in steering_bits(&network.nodes) {
        let known = start[segment - 1][bit];
        if random.percent(70) {
            start[segment - 1][bit] = None;
        }
        if !is_valid(&network, &start) {
            start[segment - 1][bit] = known;
        }
    }
    let steers = |segment: &usize| is_steering_segment(&network.nodes, *segment);
    draft.entries.retain(|entry| !matches!(entry, Entry::Hold { segment, .. } if steers(segment)));
    for segment in draft.segments().into_iter().filter(steers) {
        let bits = written(&start[segment - 1]);
        draft.entries.push(Entry::Hold { segment, bits });
    }
}
