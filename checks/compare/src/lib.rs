//! The calls on which the proved store is compared with the second program, and three ways of making them: a fixed
//! number of each kind up to the first difference (the program `compare`), a soak (the program `soak`), and as lines
//! that another program answers (the program `by_lines`).

pub mod calls;
pub mod command_line;
pub mod compared;
pub mod drawing;
pub mod soak;
pub mod tally;

mod columns;
mod days;
mod drawn_records;
mod given;
mod lent;
mod lent_tables;
mod line;
mod numbers;
mod old_logs;
mod records;
mod series;
mod tables;

use drawing::Topic;

/// What notes are taken of while calls are drawn.
pub const TOPICS: [&Topic; 5] =
    [&numbers::SORTS_OF_N, &series::FORMS, &tables::CHANGES, &drawn_records::CHANGES, &old_logs::FORMS];
