//! What the proved store gave to one call, in the form in which the second program answers.

use std::cmp::Ordering;
use std::fmt::{self, Write};

use sagivelume::Refusal;

use crate::lent::{Held, Lent};

/// The answer itself.
#[derive(Clone, Debug, PartialEq, Eq)]
pub enum Head {
    /// The call was taken and answers these fields.
    Taken(Vec<String>),
    /// The call was refused.
    Refused(Refusal),
    /// The call of a level gives this part of the coefficients.
    Stretch {
        /// Its first place.
        start: usize,
        /// Its number of places.
        length: usize,
    },
    /// The call did not come back as it should; the cause is on standard error.
    Panicked,
}

impl Head {
    /// Taken without a field, or refused.
    pub fn of(taken: Result<(), Refusal>) -> Head {
        taken.map_or_else(Head::Refused, |()| Head::Taken(vec![]))
    }

    /// Taken with these fields, or refused.
    pub fn answering<T: fmt::Display, const FIELDS: usize>(taken: Result<[T; FIELDS], Refusal>) -> Head {
        taken.map_or_else(Head::Refused, |fields| Head::Taken(fields.iter().map(T::to_string).collect()))
    }

    /// The fields of a call that was taken, none of one that was not.
    pub fn fields(&self) -> &[String] {
        match self {
            Head::Taken(fields) => fields,
            _ => &[],
        }
    }
}

/// A field that may be absent.
pub fn field<T: fmt::Display>(shown: Option<T>) -> String {
    shown.map_or_else(|| String::from("-"), |shown| shown.to_string())
}

impl fmt::Display for Head {
    fn fmt(&self, f: &mut fmt::Formatter<'_>) -> fmt::Result {
        match self {
            Head::Taken(fields) => {
                write!(f, "taken")?;
                fields.iter().try_for_each(|field| write!(f, " {field}"))
            }
            Head::Refused(refusal) => write!(f, "{refusal}"),
            Head::Stretch { start, length } => write!(f, "stretch {start} {length}"),
            Head::Panicked => write!(f, "panicked"),
        }
    }
}

/// The answer, the buffers, and what no answer may do to a buffer.
pub struct Given {
    /// The answer itself.
    pub head: Head,
    /// The whole answer line: the head, then each buffer written.
    pub answer: String,
    /// The buffers whose guards were looked at, and their lengths, as far as a length is needed.
    pub lent: Vec<(&'static str, Ordering)>,
    /// Buffers that changed where they should not.
    pub faults: Vec<String>,
}

impl Given {
    /// An answer whose buffers are still to be looked at.
    pub fn new(head: Head) -> Given {
        Given { answer: head.to_string(), head, lent: vec![], faults: vec![] }
    }

    /// A buffer that was only read: neither it nor its guards may have changed.
    pub fn read<T: Held>(mut self, lent: &Lent<T>) -> Given {
        if !lent.unchanged() {
            self.faults.push(format!("{} changed, which the call only reads", lent.name));
        }
        self.guarded(lent)
    }

    /// A buffer that was lent to be written: it stands in the answer. On a refusal it may not have changed, and its
    /// guards never.
    pub fn written<T: Held>(mut self, lent: &Lent<T>) -> Given {
        if matches!(self.head, Head::Refused(_)) && !lent.unchanged() {
            self.faults.push(format!("{} changed, though the call is refused", lent.name));
        }
        self.shown(lent.part()).guarded(lent)
    }

    /// Numbers that stand in the answer.
    pub fn shown<T: Held>(mut self, numbers: &[T]) -> Given {
        self.answer += " |";
        for number in numbers {
            write!(self.answer, " {number}").expect("a string takes every text");
        }
        self
    }

    fn guarded<T: Held>(mut self, lent: &Lent<T>) -> Given {
        self.lent.extend(lent.length().map(|length| (lent.name, length)));
        if !lent.guards_stand() {
            self.faults.push(format!("memory around {} changed", lent.name));
        }
        self
    }
}
