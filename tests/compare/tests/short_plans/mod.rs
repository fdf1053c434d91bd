//! The drawn networks of document 01, and two with RESET fields, with every plan of at most two operations
//! of at most five bits.

use penthluk_reference::generate::edges::plan_line;

const NETWORKS: [&[u8]; 7] = [
    b"seg\t0\t4\ts\nmux\t3\t0\t0\t1\nseg\t2\t1\ts\nout\t3\nwrite\t1\t1010\n",
    b"seg\t0\t2\ts\nseg\t0\t2\ts\nmux\t4\t0\t1\t2\nseg\t3\t1\ts\nout\t4\nread\t1\nread\t2\n",
    b"seg\t0\t1\ts\nseg\t1\t4\ts\nmux\t1\t0\t0\t2\nout\t3\nread\t2\n",
    b"seg\t0\t2\ts\nmux\t1\t0\t1\t1\t1\nout\t2\n",
    b"out\t0\n",
    // A, open at the start; B, with the other branch at the start by a `hold` over RESET.
    b"seg\t0\t4\ts\t1X10\nmux\t3\t0\t0\t1\nseg\t2\t1\ts\t1\nout\t3\nwrite\t1\t1010\n",
    b"seg\t0\t2\ts\nseg\t0\t2\ts\tXX\nmux\t4\t0\t1\t2\nseg\t3\t1\ts\tX\nout\t4\nread\t1\nread\t2\nhold\t4\t1\n",
];

/// Calls this with each network and plan, and with 15, 16 and 17 operations without bits.
pub fn each_short_plan(mut compare: impl FnMut(&[u8], &[u8])) {
    let lines: Vec<Vec<u8>> = (0..=5).flat_map(lines_of).collect();
    assert_eq!(lines.len(), 63);
    for network in NETWORKS {
        compare(network, b"");
        for first in &lines {
            compare(network, first);
            for second in &lines {
                compare(network, &[&first[..], second].concat());
            }
        }
        for lines in [15, 16, 17] {
            compare(network, &plan_line(0).repeat(lines));
        }
    }
}

/// Every plan line of so many bits.
fn lines_of(bits: usize) -> Vec<Vec<u8>> {
    let line = |number: usize| {
        let bits: String =
            (0..bits).map(|bit| if number >> bit & 1 == 1 { '1' } else { '0' }).collect();
        format!("csu\t{bits}\n").into_bytes()
    };
    (0..1 << bits).map(line).collect()
}
