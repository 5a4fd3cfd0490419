//! The second program: the rules of document 01, and of document 02 as far as they are asked for, read literally and
//! carried out by brute force.
//!
//! The modules stand in reading order. Each call of the documents is one public function that takes any numbers and
//! buffers of any length and gives its answer or a [`Refusal`]. Every check of a call runs before its first write.

pub mod refusal;

pub mod hours;

pub mod table;

pub mod sound;

pub mod level;

pub mod old_log;

pub mod record;

pub mod columns;

pub mod finished;

pub mod printer;

pub mod answer;

pub mod random;

pub mod season;

pub mod vectors;

pub use columns::{edges, stopped, Column, Stopped};
pub use finished::{day_change, finished, join, Answer, Finished, Found, Reading};
pub use hours::{places, Hours, LowHigh, Node, Shape};
pub use level::{level, Stretch};
pub use old_log::rebuild;
pub use printer::print;
pub use record::{ask, ask_view, open, read_record, record_bytes, write_record, Opened};
pub use refusal::Refusal;
pub use sound::{turn_back, Table};
pub use table::make;
