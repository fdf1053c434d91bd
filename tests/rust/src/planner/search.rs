//! The shortest way from the start to a state with all targets reached.
//!
//! A state is setting × 16 + the mask of targets reached; it is the index of its search entry.
//! An entry is 0 for a state not met, else 1 + the least count of operations that lead to it,
//! with `USEFUL` added if it lies on a shortest way.

use super::settings::Settings;
use crate::limits::{MAX_OPERATIONS, MAX_TARGETS, SEARCH_ENTRIES};

const USEFUL: u16 = 0x8000;

/// The count of sets of targets.
const TARGET_SETS: u16 = 1 << MAX_TARGETS;

/// The settings passed on the way that document 01 names, the first and the last included, or
/// `None` if there is "no valid plan of at most 16 operations".
pub fn shortest(settings: &mut Settings, entries: &mut [u16]) -> Option<Vec<u16>> {
    let met = spread(settings, entries)?;
    mark_useful(settings, entries, &met);
    Some(trace(settings, entries))
}

/// The state with this setting and these targets reached.
fn state_of(setting: u16, reached: u8) -> u16 {
    setting * TARGET_SETS + u16::from(reached)
}

fn setting(state: u16) -> u16 {
    state / TARGET_SETS
}

fn reached(state: u16) -> u8 {
    (state % TARGET_SETS) as u8
}

/// Meets states in the order of their least count of operations, up to the first count that has a
/// state with all targets reached. Gives the states met.
fn spread(settings: &mut Settings, entries: &mut [u16]) -> Option<Vec<u16>> {
    let first = state_of(settings.start, 0);
    let mut met = Vec::with_capacity(SEARCH_ENTRIES);
    met.push(first);
    entries[usize::from(first)] = 1;
    let mut from = 0;
    for operations in 0..=MAX_OPERATIONS as u16 {
        let to = met.len();
        if met[from..to].iter().any(|&state| reached(state) == settings.all_targets) {
            return Some(met);
        }
        for index in from..to {
            let view = settings.view(setting(met[index]));
            let reached = reached(met[index]) | view.targets;
            for next_setting in view.next_settings() {
                let next = state_of(next_setting, reached);
                if entries[usize::from(next)] == 0 && settings.view(next_setting).valid {
                    entries[usize::from(next)] = operations + 2;
                    met.push(next);
                }
            }
        }
        from = to;
    }
    None
}

/// Marks the states on shortest ways, going back from those with all targets reached, which are
/// among the states met last.
fn mark_useful(settings: &mut Settings, entries: &mut [u16], met: &[u16]) {
    let last = met.last().map_or(0, |&state| entries[usize::from(state)]);
    for &state in met.iter().rev() {
        let entry = entries[usize::from(state)];
        let useful = if entry == last {
            reached(state) == settings.all_targets
        } else {
            let view = settings.view(setting(state));
            let reached = reached(state) | view.targets;
            let mut next = view.next_settings().map(|next| state_of(next, reached));
            next.any(|next| entries[usize::from(next)] == USEFUL | (entry + 1))
        };
        if useful {
            entries[usize::from(state)] = USEFUL | entry;
        }
    }
}

/// Follows the useful states. Each operation takes the first of its scan-in bits, "0 before 1";
/// all but the steering bits are the same for each choice.
fn trace(settings: &mut Settings, entries: &[u16]) -> Vec<u16> {
    let mut passed = vec![settings.start];
    let mut state = state_of(settings.start, 0);
    while reached(state) != settings.all_targets {
        let view = settings.view(setting(state));
        let reached = reached(state) | view.targets;
        let order = settings.steering_in_place_order(setting(state));
        let after = entries[usize::from(state)] + 1;
        let next = (0..1u8 << order.len())
            .map(|value| view.after(ones_in_order(value, &order)))
            .find(|&next| entries[usize::from(state_of(next, reached))] == after)
            .expect("a useful state leads to a useful state");
        passed.push(next);
        state = state_of(next, reached);
    }
    passed
}

/// The steering bits that get 1 if the highest bit of `value` goes to the first of `order`.
fn ones_in_order(value: u8, order: &[usize]) -> u8 {
    let from_last = order.iter().rev().enumerate();
    from_last.map(|(index, &number)| (value >> index & 1) << number).sum()
}
