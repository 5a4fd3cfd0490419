//! A call on a record as text, and its answer.
//!
//! `11 n coefficients codes record` is writing, `12 record coefficients codes` is reading, `13 record` is opening,
//! `14 P place record` asks a view, `15 place record` opens a record and asks it.

use crate::record::{ask, ask_view, open, read_record, write_record};
use crate::vectors::{before, bytes_before, content, head, lent, lines, numbers, outcome, Vector};

/// A call, with what its buffers hold before.
#[derive(Clone, Debug)]
pub enum Call {
    /// Writing a record.
    Write {
        /// The hours of the series.
        n: u64,
        /// Only read.
        coefficients: Vec<i32>,
        /// Only read.
        codes: Vec<u8>,
        /// Written.
        record: Vec<u8>,
    },
    /// Reading a record.
    Read {
        /// Only read.
        record: Vec<u8>,
        /// Written.
        coefficients: Vec<i32>,
        /// Written.
        codes: Vec<u8>,
    },
    /// Opening a record.
    Open {
        /// Only read.
        record: Vec<u8>,
    },
    /// Asking a view of a record.
    AskView {
        /// The number of coefficients that the view has.
        p: u64,
        /// The place asked for.
        place: u64,
        /// Only read.
        record: Vec<u8>,
    },
    /// Opening a record and asking it.
    Ask {
        /// The place asked for.
        place: u64,
        /// Only read.
        record: Vec<u8>,
    },
}

impl Vector for Call {
    fn lines(&self) -> Vec<u8> {
        match self {
            Call::Write { n, coefficients, codes, record } => {
                lines(&[numbers(&[11, *n as i64]), lent(coefficients), lent(codes), lent(record)])
            }
            Call::Read { record, coefficients, codes } => {
                lines(&[numbers(&[12]), lent(record), lent(coefficients), lent(codes)])
            }
            Call::Open { record } => lines(&[numbers(&[13]), lent(record)]),
            Call::AskView { p, place, record } => lines(&[numbers(&[14, *p as i64, *place as i64]), lent(record)]),
            Call::Ask { place, record } => lines(&[numbers(&[15, *place as i64]), lent(record)]),
        }
    }

    fn answer(self) -> (String, Vec<u8>) {
        match self {
            Call::Write { n, coefficients, codes, mut record } => {
                let answered = write_record(n, &coefficients, &codes, &mut record).map(|bytes| vec![bytes as i64]);
                (outcome("write_record", &answered), lines(&[head(&answered, 1), content(&record)]))
            }
            Call::Read { record, mut coefficients, mut codes } => {
                let answered = read_record(&record, &mut coefficients, &mut codes).map(|n| vec![n as i64]);
                let written = [head(&answered, 1), content(&coefficients), content(&codes)];
                (outcome("read_record", &answered), lines(&written))
            }
            Call::Open { record } => {
                let answered = open(&record).map(|opened| vec![opened.n as i64, opened.p as i64]);
                (outcome("open", &answered), lines(&[head(&answered, 2)]))
            }
            Call::AskView { p, place, record } => {
                let answered = ask_view(&record, p, place).map(|coefficient| vec![i64::from(coefficient)]);
                (outcome("ask_view", &answered), lines(&[head(&answered, 1)]))
            }
            Call::Ask { place, record } => {
                let answered = ask(&record, place).map(|coefficient| vec![i64::from(coefficient)]);
                (outcome("ask", &answered), lines(&[head(&answered, 1)]))
            }
        }
    }
}

/// Writing with so many bytes lent.
pub(super) fn writing(n: u64, coefficients: &[i32], codes: &[u8], bytes: usize) -> Call {
    Call::Write { n, coefficients: coefficients.to_vec(), codes: codes.to_vec(), record: bytes_before(bytes) }
}

/// Reading with so many coefficients and codes lent.
pub(super) fn reading(record: &[u8], coefficients: usize, codes: usize) -> Call {
    Call::Read { record: record.to_vec(), coefficients: before(coefficients), codes: bytes_before(codes) }
}

pub(super) fn opening(record: &[u8]) -> Call {
    Call::Open { record: record.to_vec() }
}

pub(super) fn asking_view(p: u64, place: u64, record: &[u8]) -> Call {
    Call::AskView { p, place, record: record.to_vec() }
}

pub(super) fn asking(place: u64, record: &[u8]) -> Call {
    Call::Ask { place, record: record.to_vec() }
}
