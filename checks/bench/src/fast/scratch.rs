//! The scratch memory of one thread.

use std::cell::RefCell;

use crate::words::MOST_HOURS;

/// Lows and highs of all nodes, those of node i at place i; and coefficients and codes that are not given out yet.
pub struct Scratch {
    pub lows: [i32; MOST_HOURS],
    pub highs: [i32; MOST_HOURS],
    pub coefficients: [i32; MOST_HOURS],
    pub codes: [u8; MOST_HOURS / 2],
}

thread_local! {
    static SCRATCH: RefCell<Scratch> = const {
        RefCell::new(Scratch {
            lows: [0; MOST_HOURS],
            highs: [0; MOST_HOURS],
            coefficients: [0; MOST_HOURS],
            codes: [0; MOST_HOURS / 2],
        })
    };
}

/// Lends the thread's scratch memory, which holds anything.
pub fn with_scratch<T>(call: impl FnOnce(&mut Scratch) -> T) -> T {
    SCRATCH.with_borrow_mut(call)
}
