//! Added by the script `build` to the counted copy of the reference.
//!
//! Each insertion into the queue, the records, the runs, the findings or the
//! interactions first asks here whether the area still has a free entry. If
//! not, the call is ended by unwinding with the refusal's number.
use std::cell::{Cell, RefCell};

/// Entries that each area holds: queue, records, runs, findings, interactions.
pub const QUEUE: usize = 0;
pub const RECORDS: usize = 1;
pub const RUNS: usize = 2;
pub const FINDINGS: usize = 3;
pub const INTERACTIONS: usize = 4;
const REFUSALS: [u8; 5] = [41, 42, 43, 45, 46];

/// The value that an unwinding carries when an area is full.
pub struct Full(pub u8);

thread_local! {
    static HOLDS: Cell<[usize; 5]> = const { Cell::new([usize::MAX; 5]) };
    static MOST: Cell<[usize; 5]> = const { Cell::new([0; 5]) };
    static INSERTIONS: Cell<usize> = const { Cell::new(0) };
    static GROWTH: RefCell<Vec<Growth>> = const { RefCell::new(vec![]) };
}

/// An insertion that needed more entries of its area than any before it.
#[derive(Clone, Copy, Debug)]
pub struct Growth {
    /// The number of this insertion among all insertions.
    pub number: usize,
    pub area: usize,
    /// The entries in use before it.
    pub used: usize,
}

/// Sets how many entries each area holds and forgets what was needed so far.
pub fn set(holds: [usize; 5]) {
    HOLDS.set(holds);
    MOST.set([0; 5]);
    INSERTIONS.set(0);
    GROWTH.take();
}

/// The insertions since `set` that needed more entries than before, in order.
pub fn growth() -> Vec<Growth> {
    GROWTH.take()
}

/// The most entries that any area has needed at once since `set`.
pub fn most() -> [usize; 5] {
    MOST.get()
}

/// Called before an insertion into an area that has `used` entries.
pub fn insert(area: usize, used: usize) {
    if used >= HOLDS.get()[area] {
        std::panic::resume_unwind(Box::new(Full(REFUSALS[area])));
    }
    let number = INSERTIONS.get();
    INSERTIONS.set(number + 1);
    let mut most = MOST.get();
    if used + 1 > most[area] {
        most[area] = used + 1;
        MOST.set(most);
        GROWTH.with_borrow_mut(|list| list.push(Growth { number, area, used }));
    }
}
