//! A call on the log of an old scale as text, and its answer.
//!
//! `5 n start counts flags hours` is rebuilding.

use crate::old_log::rebuild;
use crate::vectors::{content, head, lent, lines, numbers, outcome, Vector};

/// A call of rebuilding, with what its buffers hold before.
#[derive(Clone, Debug)]
pub struct Call {
    /// The hours of the log.
    pub n: u64,
    /// The weight at the first recorded hour.
    pub start: i32,
    /// Only read.
    pub counts: Vec<u16>,
    /// Only read.
    pub flags: Vec<u8>,
    /// Written.
    pub hours: Vec<i32>,
}

impl Vector for Call {
    fn lines(&self) -> Vec<u8> {
        let Call { n, start, counts, flags, hours } = self;
        lines(&[numbers(&[5, *n as i64, i64::from(*start)]), lent(counts), lent(flags), lent(hours)])
    }

    fn answer(self) -> (String, Vec<u8>) {
        let Call { n, start, counts, flags, mut hours } = self;
        let answered = rebuild(n, &counts, &flags, start, &mut hours);
        let told = head(&answered.map(|()| Vec::new()), 0);
        (outcome("rebuild", &answered), lines(&[told, content(&hours)]))
    }
}
