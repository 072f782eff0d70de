//! Added by the script `build` to the copies of the reference that have the requests built in: windows (quiet hours) and
//! the clock that they read.
use std::cell::Cell;

const DAY: u64 = 86_400;
const WEEK: u64 = 7;
/// What validation says of a window; both have numbers in `refusals.rs`.
pub const BAD_WINDOW: &str = "invalid window";
pub const WINDOW_IN_INVARIANT: &str = "window in an invariant";

/// The weekday, from 0, and the second of the day at second 0 of a model.
#[derive(Clone, Copy, Debug, Default, PartialEq, Eq)]
pub struct Start {
    pub weekday: u64,
    pub second: u64,
}

impl Start {
    pub fn is_bad(&self) -> bool {
        self.weekday >= WEEK || self.second >= DAY
    }
}

thread_local! {
    /// Weekday and second of the day of the item of work that is carried out.
    static CLOCK: Cell<(u64, u64)> = const { Cell::new((0, 0)) };
}

/// Called where an item of work begins, at second `now` of the model.
pub fn set_clock(start: Start, now: u64) {
    let seconds = start.second + now;
    CLOCK.set(((start.weekday + seconds / DAY) % WEEK, seconds % DAY));
}

pub fn is_bad_window(days: u8, start: u64, end: u64) -> bool {
    start == end || start >= DAY || end >= DAY || days == 0 || days >= 1 << WEEK
}

/// Whether the window is open now. One that runs past midnight belongs to the weekday on which it starts.
pub fn is_open(days: u8, start: u64, end: u64) -> bool {
    let (today, second) = CLOCK.get();
    let is_marked = |day: u64| (days >> day) & 1 == 1;
    let yesterday = (today + WEEK - 1) % WEEK;
    if start < end {
        is_marked(today) && start <= second && second < end
    } else {
        (is_marked(today) && start <= second) || (is_marked(yesterday) && second < end)
    }
}
