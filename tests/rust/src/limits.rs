//! "Limits: 128 nodes, 4,000 segment bits in all, 4 targets, 16,384 bytes of text. Plans: 16
//! operations, 64,080 bytes. Planner: 6 distinct steering bits." "Registers up to 64 bits."

/// "128 nodes"
pub const MAX_NODES: usize = 128;

/// "LEN may be 64, and 65 is refused as 33 was" (document 02, Change 4)
pub const MAX_SEGMENT_BITS: usize = 64;

/// "a segment of 1 to 32 bits": the greatest LEN before Change 4
pub const EARLIER_SEGMENT_BITS: usize = 32;

/// "4,000 segment bits in all"
pub const MAX_NETWORK_BITS: usize = 4_000;

/// "4 targets"
pub const MAX_TARGETS: usize = 4;

/// "16,384 bytes of text"
pub const MAX_NETWORK_BYTES: usize = 16_384;

/// "16 operations"
pub const MAX_OPERATIONS: usize = 16;

/// "64,080 bytes"
pub const MAX_PLAN_BYTES: usize = 64_080;

/// "6 distinct steering bits"
pub const MAX_STEERING_BITS: usize = 6;

/// "11,664 search entries": one for each setting of the steering bits (each 0, 1 or X) with each
/// set of targets reached.
pub const SEARCH_ENTRIES: usize = 11_664;

/// Room for the `hold` lines of any network: 128 lines of a word, two tabs, at most three digits and a line
/// end, and 4,000 bits.
pub const MAX_HOLD_BYTES: usize = 10 * MAX_NODES + MAX_NETWORK_BITS;

/// "a line over 32,768 bytes", of a record of clocks; its line end counts
pub const MAX_CLOCK_LINE_BYTES: usize = 32_768;
