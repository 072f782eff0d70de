//! The C interface of include/fukhtsege.h.
use crate::rows::Areas;

pub const SIMULATE_VALUES: usize = 8;
pub const SIMULATE_NUMBERS: usize = 1540;
pub const CHECK_VIOLATED: usize = 4;
pub const CHECK_SIMULATION: usize = 2460;
pub const CHECK_NUMBERS: usize = 4000;
pub const VERIFY_WORDS: usize = 56;
pub const VERIFY_CHECK: usize = 2076;
pub const VERIFY_NUMBERS: usize = 6076;
pub const MINIMIZE_WORDS: usize = 8;
pub const MINIMIZE_CHECK: usize = 408;
pub const MINIMIZE_NUMBERS: usize = 4408;
pub const LINT_NUMBERS: usize = 228;
pub const CONE_NUMBERS: usize = 68;

pub const QUEUE_ENTRY: usize = 5;
pub const RECORD_ENTRY: usize = 13;
pub const RUN_ENTRY: usize = 28;
pub const FINDING_ENTRY: usize = 14;
pub const INTERACTION_ENTRY: usize = 3;
const OUTPUT_MORE: usize = 45;

#[rustfmt::skip]
unsafe extern "C" {
    fn fukhtsege_validate(file: *const u8, file_len: usize) -> u32;
    fn fukhtsege_simulate(
        file: *const u8, file_len: usize, queue: *mut u32, queue_len: usize, records: *mut u32, records_len: usize,
        runs: *mut u32, runs_len: usize, answer: *mut u64, answer_len: usize,
    ) -> u32;
    fn fukhtsege_check(
        file: *const u8, file_len: usize, queue: *mut u32, queue_len: usize, records: *mut u32, records_len: usize,
        runs: *mut u32, runs_len: usize, answer: *mut u64, answer_len: usize,
    ) -> u32;
    fn fukhtsege_verify(
        file: *const u8, file_len: usize, queue: *mut u32, queue_len: usize, records: *mut u32, records_len: usize,
        runs: *mut u32, runs_len: usize, output: *mut u8, output_len: usize, answer: *mut u64, answer_len: usize,
    ) -> u32;
    fn fukhtsege_minimize(
        file: *const u8, file_len: usize, queue: *mut u32, queue_len: usize, records: *mut u32, records_len: usize,
        runs: *mut u32, runs_len: usize, output: *mut u8, output_len: usize, answer: *mut u64, answer_len: usize,
    ) -> u32;
    fn fukhtsege_lint(
        file: *const u8, file_len: usize, findings: *mut u32, findings_len: usize, interactions: *mut u32,
        interactions_len: usize, answer: *mut u64, answer_len: usize,
    ) -> u32;
    fn fukhtsege_cone(file: *const u8, file_len: usize, answer: *mut u64, answer_len: usize) -> u32;
}

/// The memory that is lent to a call: made once for a row and lent again for each call.
pub struct Lent {
    /// Queue, records, runs; or findings, interactions, nothing.
    pub words: [Vec<u32>; 3],
    pub output: Vec<u8>,
    pub answer: Vec<u64>,
}

impl Lent {
    pub fn new(entry: &str, file: &[u8], areas: &Areas) -> Self {
        let sizes = match areas {
            Areas::None => [0, 0, 0],
            Areas::Simulation([queue, records, runs]) => {
                [queue * QUEUE_ENTRY, records * RECORD_ENTRY, runs * RUN_ENTRY]
            }
            Areas::Lint([findings, interactions]) => {
                [findings * FINDING_ENTRY, interactions * INTERACTION_ENTRY, 0]
            }
        };
        let numbers = match entry {
            "validate" => 0,
            "simulate" => SIMULATE_NUMBERS,
            "check" => CHECK_NUMBERS,
            "verify" => VERIFY_NUMBERS,
            "minimize" => MINIMIZE_NUMBERS,
            "lint" => LINT_NUMBERS,
            "cone" => CONE_NUMBERS,
            _ => panic!("no entry of this name: {entry}"),
        };
        let output =
            if matches!(entry, "verify" | "minimize") { file.len() + OUTPUT_MORE } else { 0 };
        Lent {
            words: sizes.map(|size| vec![0; size]),
            output: vec![0; output],
            answer: vec![0; numbers],
        }
    }
}

/// Calls an entry; gives 0 or the refusal's number.
pub fn call(entry: &str, file: &[u8], lent: &mut Lent) -> u32 {
    let (f, n) = (file.as_ptr(), file.len());
    let [a, b, c] = &mut lent.words;
    let (a, al) = (a.as_mut_ptr(), a.len());
    let (b, bl) = (b.as_mut_ptr(), b.len());
    let (c, cl) = (c.as_mut_ptr(), c.len());
    let (o, ol) = (lent.output.as_mut_ptr(), lent.output.len());
    let (w, wl) = (lent.answer.as_mut_ptr(), lent.answer.len());
    // All pointers refer to as many elements as said, and no two areas overlap.
    unsafe {
        match entry {
            "validate" => fukhtsege_validate(f, n),
            "simulate" => fukhtsege_simulate(f, n, a, al, b, bl, c, cl, w, wl),
            "check" => fukhtsege_check(f, n, a, al, b, bl, c, cl, w, wl),
            "verify" => fukhtsege_verify(f, n, a, al, b, bl, c, cl, o, ol, w, wl),
            "minimize" => fukhtsege_minimize(f, n, a, al, b, bl, c, cl, o, ol, w, wl),
            "lint" => fukhtsege_lint(f, n, a, al, b, bl, w, wl),
            "cone" => fukhtsege_cone(f, n, w, wl),
            _ => panic!("no entry of this name: {entry}"),
        }
    }
}
