//! The proved calls, through the static library of the crate `c_api`.

pub mod expected;
pub mod lent;

extern "C" {
    /// `pub extern "C" fn penthluk_read(text: &[u8], answer: &mut [usize; 5])`
    fn penthluk_read(text: *const u8, text_length: usize, answer: *mut usize);

    /// `pub extern "C" fn penthluk_mark(network: &[u8], plan: &[u8], answer: &mut [usize; 16])`
    fn penthluk_mark(
        network: *const u8,
        network_length: usize,
        plan: *const u8,
        plan_length: usize,
        answer: *mut usize,
    );

    /// `pub extern "C" fn penthluk_clocks(plan: &[u8], tms: &mut [u8], tdi: &mut [u8], answer: &mut [usize; 2])`
    fn penthluk_clocks(
        plan: *const u8,
        plan_length: usize,
        tms: *mut u8,
        tms_length: usize,
        tdi: *mut u8,
        tdi_length: usize,
        answer: *mut usize,
    );

    /// `pub extern "C" fn penthluk_plan(network: &[u8], search: &mut [u16], plan: &mut [u8], answer: &mut [usize; 2])`
    fn penthluk_plan(
        network: *const u8,
        network_length: usize,
        search: *mut u16,
        search_length: usize,
        plan: *mut u8,
        plan_length: usize,
        answer: *mut usize,
    );

    /// `pub extern "C" fn penthluk_carry(network: &[u8], plan: &[u8], holds: &mut [u8], answer: &mut [usize; 2])`
    fn penthluk_carry(
        network: *const u8,
        network_length: usize,
        plan: *const u8,
        plan_length: usize,
        holds: *mut u8,
        holds_length: usize,
        answer: *mut usize,
    );

    /// `pub extern "C" fn penthluk_recover(text: &[u8], plan: &mut [u8], answer: &mut [usize; 2])`
    fn penthluk_recover(
        text: *const u8,
        text_length: usize,
        plan: *mut u8,
        plan_length: usize,
        answer: *mut usize,
    );

    /// `pub extern "C" fn penthluk_recover_line(progress: &[usize; 4], line: &[u8], plan: &mut [u8], answer: &mut [usize; 5])`
    fn penthluk_recover_line(
        progress: *const usize,
        line: *const u8,
        line_length: usize,
        plan: *mut u8,
        plan_length: usize,
        answer: *mut usize,
    );

    /// `pub extern "C" fn penthluk_recover_end(progress: &[usize; 4], rest: &[u8], answer: &mut [usize; 2])`
    fn penthluk_recover_end(
        progress: *const usize,
        rest: *const u8,
        rest_length: usize,
        answer: *mut usize,
    );
}

/// A number that no call answers: what stands in an answer before the call.
const UNWRITTEN: usize = usize::MAX;

/// 0 and the four counts of an accepted network, or number and place of a refusal and three zeros.
#[inline]
pub fn read(text: &[u8]) -> [usize; 5] {
    let mut answer = [UNWRITTEN; 5];
    // SAFETY: the call has no `requires`; it reads the slice and writes the five numbers.
    unsafe { penthluk_read(text.as_ptr(), text.len(), answer.as_mut_ptr()) };
    answer
}

/// 0, the counts of operations, of clocks and of `got` rows, and the rows as target, operation and
/// place; or number and place of a refusal. Zeros stand behind.
#[inline]
pub fn mark(network: &[u8], plan: &[u8]) -> [usize; 16] {
    let mut answer = [UNWRITTEN; 16];
    // SAFETY: the call has no `requires`; it reads the slices and writes the sixteen numbers.
    unsafe {
        penthluk_mark(
            network.as_ptr(),
            network.len(),
            plan.as_ptr(),
            plan.len(),
            answer.as_mut_ptr(),
        )
    };
    answer
}

/// Writes the clocks of a plan text. 0 and their count, or number and place of a refusal.
#[inline]
pub fn clocks(plan: &[u8], tms: &mut [u8], tdi: &mut [u8]) -> [usize; 2] {
    let mut answer = [UNWRITTEN; 2];
    // SAFETY: the call has no `requires`; it reads the plan and writes within the two slices, which
    // do not overlap, and the two numbers.
    unsafe {
        penthluk_clocks(
            plan.as_ptr(),
            plan.len(),
            tms.as_mut_ptr(),
            tms.len(),
            tdi.as_mut_ptr(),
            tdi.len(),
            answer.as_mut_ptr(),
        )
    };
    answer
}

/// Writes the plan of a network text to the front of `plan`. 0 and the count of its bytes, or number
/// and place of a refusal.
#[inline]
pub fn plan(network: &[u8], search: &mut [u16], plan: &mut [u8]) -> [usize; 2] {
    let mut answer = [UNWRITTEN; 2];
    // SAFETY: the call has no `requires`; it reads the network and writes within the two slices,
    // which do not overlap, and the two numbers.
    unsafe {
        penthluk_plan(
            network.as_ptr(),
            network.len(),
            search.as_mut_ptr(),
            search.len(),
            plan.as_mut_ptr(),
            plan.len(),
            answer.as_mut_ptr(),
        )
    };
    answer
}

/// Writes the `hold` lines of the last configuration to the front of `holds`. 0 and the count of their
/// bytes, or number and place of a refusal.
#[inline]
pub fn carry(network: &[u8], plan: &[u8], holds: &mut [u8]) -> [usize; 2] {
    let mut answer = [UNWRITTEN; 2];
    // SAFETY: the call has no `requires`; it reads the two texts and writes within `holds` and the two
    // numbers.
    unsafe {
        penthluk_carry(
            network.as_ptr(),
            network.len(),
            plan.as_ptr(),
            plan.len(),
            holds.as_mut_ptr(),
            holds.len(),
            answer.as_mut_ptr(),
        )
    };
    answer
}

/// Writes the plan of a text of clocks to the front of `plan`. 0 and the count of its bytes, or number
/// and place of a refusal.
#[inline]
pub fn recover(text: &[u8], plan: &mut [u8]) -> [usize; 2] {
    let mut answer = [UNWRITTEN; 2];
    // SAFETY: the call has no `requires`; it reads the text and writes within `plan` and the two
    // numbers.
    unsafe {
        penthluk_recover(
            text.as_ptr(),
            text.len(),
            plan.as_mut_ptr(),
            plan.len(),
            answer.as_mut_ptr(),
        )
    };
    answer
}

/// Follows one more line of clocks, without its line end, and writes what it adds to the plan.
/// `progress` is lines, state, entries and bytes of plan. 0 and the new progress, or number and place of
/// a refusal and three zeros.
#[inline]
pub fn recover_line(progress: &[usize; 4], line: &[u8], plan: &mut [u8]) -> [usize; 5] {
    let mut answer = [UNWRITTEN; 5];
    recover_line_into(progress, line, plan, &mut answer);
    answer
}

/// The same with a lent answer.
#[inline]
pub fn recover_line_into(
    progress: &[usize; 4],
    line: &[u8],
    plan: &mut [u8],
    answer: &mut [usize; 5],
) {
    // SAFETY: the call has no `requires`; it reads the four numbers and the line and writes within
    // `plan` and the five numbers.
    unsafe {
        penthluk_recover_line(
            progress.as_ptr(),
            line.as_ptr(),
            line.len(),
            plan.as_mut_ptr(),
            plan.len(),
            answer.as_mut_ptr(),
        )
    };
}

/// The end of a text of clocks; `rest` is what stands behind its last line end. 0 and the count of the
/// plan's bytes, or number and place of a refusal.
#[inline]
pub fn recover_end(progress: &[usize; 4], rest: &[u8]) -> [usize; 2] {
    let mut answer = [UNWRITTEN; 2];
    // SAFETY: the call has no `requires`; it reads the four numbers and the rest and writes the two
    // numbers.
    unsafe {
        penthluk_recover_end(progress.as_ptr(), rest.as_ptr(), rest.len(), answer.as_mut_ptr())
    };
    answer
}

/// The line that the read program prints for these numbers.
pub fn read_line(answer: [usize; 5]) -> Vec<u8> {
    let [number, a, b, c, d] = answer;
    match number {
        0 => format!("ok\t{a}\t{b}\t{c}\t{d}\n"),
        _ => format!("fail\t{number}\t{a}\n"),
    }
    .into_bytes()
}
