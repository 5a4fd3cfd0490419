//! The store's calls in safe Rust written for speed.
//!
//! The signatures, buffers, checks and refusals are those of the proved store. Whole tables are made and examined level
//! by level, without a branch in the loop over a level, so that the compiler makes vectors of it; columns are walked by
//! loops. Where something is unsound, the plain side looks for the first such node.
//!
//! An empty node has the gap mark for low. Scratch memory is the thread's own, made once and never cleared.

mod column;
mod examine;
mod make;
mod node;
mod printer;
mod record;
mod scratch;

pub use column::{day_change, finished, stopped};
pub use examine::turn_back;
pub use make::make;
pub use printer::print;
pub use record::{read_record, write_record};
