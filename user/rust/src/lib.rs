//! The proved store of hive weights, called from Rust.
//!
//! A series of n hours, 1 to 16,384, holds a reading in grams or a gap in each hour. Its table has P coefficients and
//! P/2 codes, where P is the smallest power of two that is at least n and at least 2. The functions here check
//! nothing themselves: every one is a call of the proved store, which takes any numbers and buffers of any length,
//! empty ones too. A refused call writes nothing, and no call writes beyond what it needs of a longer buffer. The crate
//! is `no_std`.
//!
//! ```
//! use sagivelume::GAP;
//!
//! let readings = [41_200, 41_350, GAP, 40_900, 32_760, 32_790, GAP];
//! let (mut coefficients, mut codes) = ([0; 8], [0; 4]);
//! sagivelume::make(7, &readings, &mut coefficients, &mut codes)?;
//!
//! let mut hours = [0; 7];
//! sagivelume::turn_back(7, &coefficients, &codes, &mut hours)?;
//! assert_eq!(hours, readings);
//!
//! // Column 1 of the whole series drawn in three: its first reading, its last, the least and the greatest.
//! let column = sagivelume::Column { a: 0, b: 7, w: 3, k: 1 };
//! let drawn = sagivelume::finished(7, &coefficients, &codes, column)?.answer.expect("readings");
//! assert_eq!((drawn.first.grams, drawn.last.grams, drawn.low, drawn.high), (40_900, 32_760, 32_760, 40_900));
//!
//! // Its house record: 7 bytes, then three for each coefficient, then the codes.
//! let mut record = [0; 35];
//! assert_eq!(sagivelume::write_record(7, &coefficients, &codes, &mut record)?, 35);
//! assert_eq!(sagivelume::open_record(&record)?.coefficient(1)?, 41_350);
//! # Ok::<(), sagivelume::Refusal>(())
//! ```

#![no_std]

mod column;
mod finished;
#[allow(unsafe_code)]
mod linked;
mod old_log;
mod record;
mod refusal;
mod sizes;
mod table;

pub use column::*;
pub use finished::*;
pub use old_log::*;
pub use record::*;
pub use refusal::*;
pub use sizes::*;
pub use table::*;
