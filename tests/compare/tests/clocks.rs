//! The proved clock writer answers as the plain Rust version does and leaves the same bytes in both
//! buffers, written or not.

use penthluk_compare::expected::{count_numbers, passed};
use penthluk_compare::lent::Lent;
use penthluk_compare::{clocks, mark};
use penthluk_reference::clocks::write_clocks;
use penthluk_reference::generate::cases::{case, draw_network, draw_plan};
use penthluk_reference::generate::edges::{draw_edge_plan, plan_line};
use penthluk_reference::generate::large::full;
use penthluk_reference::generate::plan_damage::{damage_plan, PLAN_FAULTS};
use penthluk_reference::generate::plans::wander;
use penthluk_reference::generate::random::Random;
use penthluk_reference::limits::{MAX_OPERATIONS, MAX_PLAN_BYTES};
use penthluk_reference::plan_text::write_plan;
use penthluk_reference::play::check_pass;
use penthluk_reference::reader::read_network;

/// How often each number came; 0 is success.
#[derive(Default, Debug)]
struct Counts([usize; 18]);

impl Counts {
    /// Calls both with buffers of these lengths and compares the answers and all bytes.
    #[track_caller]
    fn compare(&mut self, plan: &[u8], tms_length: usize, tdi_length: usize) -> [usize; 2] {
        let (mut tms, mut tdi) = (Lent::bytes(tms_length), Lent::bytes(tdi_length));
        let (mut plain_tms, mut plain_tdi) = (tms.clone(), tdi.clone());
        let answer = clocks(plan, tms.buffer(), tdi.buffer());
        let expected = write_clocks(plan, plain_tms.buffer(), plain_tdi.buffer());
        let lengths = (plan.len(), tms_length, tdi_length);
        assert_eq!(answer, count_numbers(&expected), "{lengths:?}");
        assert!(tms == plain_tms, "TMS {lengths:?}");
        assert!(tdi == plain_tdi, "TDI {lengths:?}");
        if answer[0] != 0 {
            assert!(
                tms == Lent::bytes(tms_length) && tdi == Lent::bytes(tdi_length),
                "{lengths:?}"
            );
        }
        self.0[answer[0]] += 1;
        answer
    }

    /// All pairs of lengths: none, one too few, as many as needed, one more, many more.
    #[track_caller]
    fn compare_lengths(&mut self, plan: &[u8]) {
        let needed = plan.len();
        let mut lengths = vec![0, needed.saturating_sub(1), needed, needed + 1, needed + 1_000];
        lengths.dedup();
        for &tms_length in &lengths {
            for &tdi_length in &lengths {
                self.compare(plan, tms_length, tdi_length);
            }
        }
    }

    #[track_caller]
    fn at_least(&self, least: [usize; 3]) {
        let [written, short, form] = least;
        let Counts(counts) = self;
        assert!(counts[0] >= written && counts[13] >= short && counts[14] >= form, "{self:?}");
        assert_eq!(counts.iter().sum::<usize>(), counts[0] + counts[13] + counts[14], "{self:?}");
    }
}

/// Plan texts of all kinds with random lengths around what is needed, and with all pairs of lengths.
#[test]
fn generated_plans() {
    let mut counts = Counts::default();
    for seed in 0..30_000 {
        let case = case(seed);
        counts.compare(&case.plan, case.tms_room, case.tdi_room);
        if seed % 10 == 0 {
            counts.compare_lengths(&case.plan);
        }
    }
    counts.at_least([30_000, 30_000, 10_000]);
}

/// Plans up to 64,080 bytes and beyond.
#[test]
fn long_plans() {
    let random = &mut Random::new(2_001);
    let mut counts = Counts::default();
    let network = read_network(&full().text()).expect("the network is accepted");
    for _ in 0..40 {
        counts.compare_lengths(&draw_edge_plan(random));
        counts.compare_lengths(&write_plan(&wander(random, &network, MAX_OPERATIONS, 50)));
    }
    for bytes in MAX_PLAN_BYTES - 2..=MAX_PLAN_BYTES + 2 {
        counts.compare_lengths(&plan_line(bytes - 5));
    }
    counts.at_least([500, 500, 200]);
}

/// Every short text: up to sixteen lines without bits and one beyond, and every cut of a plan.
#[test]
fn short_plans() {
    let mut counts = Counts::default();
    for lines in 0..=MAX_OPERATIONS + 1 {
        counts.compare_lengths(&plan_line(0).repeat(lines));
    }
    let whole = b"csu\t1\ncsu\t\ncsu\t00101\n";
    for end in 0..=whole.len() {
        counts.compare_lengths(&whole[..end]);
    }
    counts.at_least([150, 250, 400]);
}

/// Each fault of form, with enough room and with too little: 14 comes before 13.
#[test]
fn damaged_plans() {
    let random = &mut Random::new(2_002);
    let mut counts = Counts::default();
    for fault in PLAN_FAULTS {
        for _ in 0..200 {
            let lines = random.below(MAX_OPERATIONS);
            let bits = random.below(40);
            let (plan, refusal) = damage_plan(random, &plan_line(bits).repeat(lines), fault);
            counts.compare_lengths(&plan);
            assert_eq!(counts.compare(&plan, 0, MAX_PLAN_BYTES), [14, refusal.place]);
        }
    }
    counts.at_least([0, 0, 20_000]);
}

/// The clocks of passed plans: as many as the mark says; on the test frame they do what the proved
/// mark says.
#[test]
fn passed_plans() {
    let random = &mut Random::new(2_003);
    let mut counts = Counts::default();
    let mut with_rows = 0;
    for _ in 0..12_000 {
        let text = draw_network(random).text();
        let Ok(network) = read_network(&text) else { continue };
        let plan = write_plan(&draw_plan(random, &network));
        let Some(pass) = passed(&mark(&text, &plan)) else { continue };
        assert_eq!(counts.compare(&plan, MAX_PLAN_BYTES, MAX_PLAN_BYTES), [0, pass.clocks]);
        assert_eq!(check_pass(&network, &plan, &pass, &mut || random.bit()), Ok(()));
        with_rows += usize::from(!pass.gots.is_empty());
    }
    counts.at_least([4_000, 0, 0]);
    assert!(with_rows >= 2_000, "{with_rows}");
}
