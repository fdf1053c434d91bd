//! Comparisons of the proved calls for clocks with the plain Rust version, and how often each number
//! came.

use penthluk_compare::expected::{count_numbers, progress_numbers, step_numbers};
use penthluk_compare::lent::Lent;
use penthluk_compare::{recover, recover_end, recover_line};
use penthluk_reference::generate::clock_lines::clk_line;
use penthluk_reference::generate::random::Random;
use penthluk_reference::limits::MAX_PLAN_BYTES;
use penthluk_reference::recover::calls::{self, Progress};
use penthluk_reference::recover::recover_text;
use penthluk_reference::text::lines;

/// A buffer up to this length is compared after each line, a longer one at the end.
const SHORT: usize = 300;

/// How often each number came; 0 is success.
#[derive(Default, Debug)]
pub struct Counts([usize; 20]);

impl Counts {
    /// Calls both for a whole text with a buffer of this length and compares the answers and all bytes.
    #[track_caller]
    pub fn compare(&mut self, text: &[u8], length: usize) -> [usize; 2] {
        let mut plan = Lent::bytes(length);
        let mut plain = plan.clone();
        let answer = recover(text, plan.buffer());
        let expected = count_numbers(&recover_text(text, plain.buffer()));
        assert_eq!(answer, expected, "{length}, {}", shown(text));
        assert!(plan == plain, "{length}, {}", shown(text));
        if answer[0] != 0 {
            assert!(plan == Lent::bytes(length), "{length}, {}", shown(text));
        }
        self.0[answer[0]] += 1;
        answer
    }

    /// Lengths: none, one too few, as many as needed, one more, many more.
    #[track_caller]
    pub fn compare_lengths(&mut self, text: &[u8]) {
        for length in lengths(text) {
            self.compare(text, length);
        }
    }

    /// The lines in turn, then the end, in buffers of the same lengths.
    #[track_caller]
    pub fn compare_lines(&mut self, text: &[u8]) {
        for length in lengths(text) {
            self.compare_lines_in(text, length);
        }
    }

    #[track_caller]
    fn compare_lines_in(&mut self, text: &[u8], length: usize) {
        let mut plan = Lent::bytes(length);
        let mut plain = plan.clone();
        let mut progress = Progress::default();
        for line in lines(text) {
            if !line.ended {
                self.compare_end(&progress, line.bytes);
                break;
            }
            let answer = recover_line(&progress_numbers(&progress), line.bytes, plan.buffer());
            let expected = calls::recover_line(&progress, line.bytes, plain.buffer());
            assert_eq!(answer, step_numbers(&expected), "{length}, {}", shown(text));
            assert!(length > SHORT || plan == plain, "{length}, {}", shown(text));
            self.0[answer[0]] += 1;
            match expected {
                Ok(next) => progress = next,
                Err(_) => break,
            }
        }
        assert!(plan == plain, "{length}, {}", shown(text));
        self.compare_end(&progress, b"");
    }

    #[track_caller]
    fn compare_end(&mut self, progress: &Progress, rest: &[u8]) {
        let answer = recover_end(&progress_numbers(progress), rest);
        let expected = count_numbers(&calls::recover_end(progress, rest));
        assert_eq!(answer, expected, "{progress:?}, {}", shown(rest));
        self.0[answer[0]] += 1;
    }

    /// A line behind any progress, in a buffer of any length.
    #[track_caller]
    pub fn compare_progress(&mut self, random: &mut Random) {
        let progress = draw_progress(random);
        let line = draw_line(random);
        let length = match random.below(4) {
            0 => random.below(40),
            1 => MAX_PLAN_BYTES + random.below(3) - 1,
            _ => (progress.bytes.min(MAX_PLAN_BYTES) + random.below(40)).saturating_sub(3),
        };
        let mut plan = Lent::bytes(length);
        let mut plain = plan.clone();
        let answer = recover_line(&progress_numbers(&progress), &line, plan.buffer());
        let expected = calls::recover_line(&progress, &line, plain.buffer());
        assert_eq!(answer, step_numbers(&expected), "{progress:?}, {length}, {}", shown(&line));
        assert!(plan == plain, "{progress:?}, {length}, {}", shown(&line));
        if answer[0] != 0 {
            assert!(plan == Lent::bytes(length), "{progress:?}, {length}, {}", shown(&line));
        }
        self.0[answer[0]] += 1;
        let rest = *random.pick(&[&b""[..], b"", b"c", b"\n", b"clk\t0\t0"]);
        self.compare_end(&progress, rest);
    }

    /// Successes, 13 and 19 came at least so often, and no other number.
    #[track_caller]
    pub fn at_least(&self, least: [usize; 3]) {
        let [good, short, refused] = least;
        let Counts(counts) = self;
        assert!(counts[0] >= good && counts[13] >= short && counts[19] >= refused, "{self:?}");
        assert_eq!(counts.iter().sum::<usize>(), counts[0] + counts[13] + counts[19], "{self:?}");
    }
}

/// The front of a text.
fn shown(text: &[u8]) -> String {
    format!("{} bytes: {:?}", text.len(), String::from_utf8_lossy(&text[..text.len().min(300)]))
}

/// The lengths of a buffer: none, one too few, as many as needed, one more, many more. For a refused
/// text some of its lines' bytes are needed.
fn lengths(text: &[u8]) -> Vec<usize> {
    let mut plan = vec![0; MAX_PLAN_BYTES];
    let needed = recover_text(text, &mut plan).unwrap_or(text.len() / 4 % 100);
    let mut lengths = vec![0, needed.saturating_sub(1), needed, needed + 1, needed + 100];
    lengths.dedup();
    lengths
}

/// One number of many near the limits, or one that no line leaves behind.
fn draw_progress(random: &mut Random) -> Progress {
    let most = usize::MAX;
    let odd = random.percent(25);
    let mut pick = |good: &[usize], wrong: &[usize]| match odd && random.percent(40) {
        true => *random.pick(wrong),
        false => *random.pick(good),
    };
    let wide = 1 << 32;
    Progress {
        lines: pick(&[0, 1, 7, 65_535, wide - 1, wide, most - 1], &[most, most - 1]),
        state: pick(
            &[1, 2, 3, 4, 4, 4, 5, 6, 7, 8],
            &[0, 9, 10, 15, 16, 255, 257, wide + 1, most / 2 + 2, most],
        ),
        entries: pick(&[0, 1, 3, 14, 15, 16], &[17, 18, 255, 256, wide, wide + 1, most]),
        bytes: pick(
            &[0, 1, 4, 5, 6, 9, 80, 64_060, 64_075, 64_076, 64_079, 64_080],
            &[0, 64_081, 64_082, 65_536, wide, wide + 5, most - 4, most],
        ),
    }
}

/// A line of some clocks without its line end, seldom of a wrong form.
fn draw_line(random: &mut Random) -> Vec<u8> {
    let clocks = *random.pick(&[1, 1, 2, 3, 5, 8, 20]);
    let ones = *random.pick(&[0, 20, 50, 80]);
    let field = |random: &mut Random, ones: usize| -> Vec<u8> {
        (0..clocks).map(|_| if random.percent(ones) { b'1' } else { b'0' }).collect()
    };
    let (tms, tdi) = (field(random, ones), field(random, 50));
    let mut line = clk_line(&tms, &tdi);
    line.pop();
    if random.percent(8) {
        let index = random.below(line.len());
        line[index] = *random.pick(b"\t\n\r01X\0\xff");
    }
    line
}
