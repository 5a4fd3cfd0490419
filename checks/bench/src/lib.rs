//! What the proved store's speed is measured beside: the same calls in plain Rust and in Rust written for speed, and
//! for columns and days a scan of the readings; and the work that every side is given.

mod head;
pub mod words;

pub mod plain;

pub mod fast;

pub mod scan;

pub mod season;

pub mod sides;

pub mod work;
