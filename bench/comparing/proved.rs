//! The proved library, as the glue exports it.

use crate::calls::{Order, Sky};

unsafe extern "C" {
    fn compared_run(
        kind: u32,
        columns: u32,
        records: usize,
        script: *const Order,
        script_length: usize,
        out: *mut u32,
        out_length: usize,
    ) -> usize;
    fn timed_loads(script: *const Order, script_length: usize, root: u32, rounds: u32) -> u64;
    fn timed_trials(
        script: *const Order,
        script_length: usize,
        root: u32,
        edits: *const Order,
        edits_length: usize,
        packs: bool,
    ) -> u64;
    fn record_bytes(which: u32) -> usize;
}

/// What the calls of a script answer, as words.
pub fn run(sky: Sky, script: &[Order], expected_length: usize) -> Vec<u32> {
    let mut out = vec![0; expected_length + 16];
    // SAFETY: a slice crosses as a pointer and a length, and the callee is proved to stay inside it.
    let length = unsafe {
        compared_run(sky.kind_number(), sky.columns, sky.records, script.as_ptr(), script.len(), out.as_mut_ptr(), out.len())
    };
    assert!(length != usize::MAX, "no memory");
    out.truncate(length);
    out
}

/// Loads the lists of a script so many rounds.
pub fn loads(script: &[Order], root: u16, rounds: u32) -> u64 {
    // SAFETY: as above.
    unsafe { timed_loads(script.as_ptr(), script.len(), root.into(), rounds) }
}

/// Loads the lists of a script, and tries and undoes each edit; the sum of widths and heights if it packs.
pub fn trials(script: &[Order], root: u16, edits: &[Order], packs: bool) -> u64 {
    // SAFETY: as above.
    unsafe { timed_trials(script.as_ptr(), script.len(), root.into(), edits.as_ptr(), edits.len(), packs) }
}

/// The memory that n blocks want for load, begin, pack and undo: the plan's own, two tables of 512 rows, and what is lent.
pub fn bytes(n: usize) -> usize {
    // SAFETY: a number crosses.
    let [row, spot, place, run] = [0, 1, 2, 3].map(|which| unsafe { record_bytes(which) });
    2 * 512 * row + n * (size_of::<u16>() + spot + place) + (2 * n + 1) * run
}
