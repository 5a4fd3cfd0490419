//! What is measured: every call on every side, with the buffers that it works on.

use crate::head::record_size;
use crate::season::{drawn_windows, season, Window, N};
use crate::sides::{Fast, Parts, Plain, Proved, Scan, Store};

/// The depth of stopped columns: l.
pub const L: usize = N.ilog2() as usize;
/// The bytes of the record.
pub const RECORD: usize = record_size(N);

/// The sides measured.
#[derive(Clone, Copy, Debug, PartialEq, Eq)]
pub enum Side {
    /// The proved store.
    Proved,
    /// Plain Rust.
    Plain,
    /// Rust written for speed.
    Fast,
    /// A scan of the readings, for columns and days alone.
    Scan,
}

impl Side {
    /// Every side, each at its place.
    pub const ALL: [Side; 4] = [Side::Proved, Side::Plain, Side::Fast, Side::Scan];

    /// The sides that have the whole store.
    pub const STORES: [Side; 3] = [Side::Proved, Side::Plain, Side::Fast];

    /// Its name in a table.
    pub fn name(self) -> &'static str {
        ["proved", "plain", "fast", "scan"][self as usize]
    }
}

/// The calls measured.
#[derive(Clone, Copy, Debug, PartialEq, Eq)]
pub enum Call {
    /// Making the table.
    Make,
    /// Turning it back.
    TurnBack,
    /// Writing its record.
    WriteRecord,
    /// Reading its record.
    ReadRecord,
    /// Every finished column of the whole series.
    FinishedWhole,
    /// Every finished column of the drawn windows.
    FinishedDrawn,
    /// Every stopped column of the whole series.
    StoppedWhole,
    /// Every stopped column of the drawn windows.
    StoppedDrawn,
    /// The change of every day.
    DayChange,
}

impl Call {
    /// Every call, each at its place.
    pub const ALL: [Call; 9] = [
        Call::Make,
        Call::TurnBack,
        Call::WriteRecord,
        Call::ReadRecord,
        Call::FinishedWhole,
        Call::FinishedDrawn,
        Call::StoppedWhole,
        Call::StoppedDrawn,
        Call::DayChange,
    ];

    /// Its name in a table.
    pub fn name(self) -> &'static str {
        [
            "make",
            "turn back",
            "write record",
            "read record",
            "finished, whole series",
            "finished, drawn windows",
            "stopped, whole series",
            "stopped, drawn windows",
            "day change",
        ][self as usize]
    }

    /// Whether it is one on a whole table, and not one of columns or days.
    pub fn is_of_whole_table(self) -> bool {
        self as usize <= Call::ReadRecord as usize
    }

    /// Whether a side has it.
    pub fn is_on(self, side: Side) -> bool {
        side != Side::Scan || !self.is_of_whole_table()
    }

    /// Whether it takes the drawn windows.
    pub fn is_of_drawn_windows(self) -> bool {
        matches!(self, Call::FinishedDrawn | Call::StoppedDrawn)
    }
}

/// What a side is given and what it writes. The buffers are made once and then written again by each call.
pub struct Work {
    /// The series.
    pub readings: Vec<i32>,
    /// The drawn windows.
    pub windows: Vec<Window>,
    /// What is written.
    pub written: Written,
}

impl Work {
    /// The series, the windows, and buffers that hold nothing yet.
    pub fn new() -> Work {
        Work { readings: season(), windows: drawn_windows(), written: Written::new() }
    }

    /// Makes a call on a side and tells whether it was taken. A call needs what those before it wrote.
    pub fn run(&mut self, side: Side, call: Call) -> bool {
        match side {
            Side::Proved => self.run_store::<Proved>(call),
            Side::Plain => self.run_store::<Plain>(call),
            Side::Fast => self.run_store::<Fast>(call),
            Side::Scan => self.run_parts::<Scan>(call),
        }
    }

    fn run_store<S: Store + Parts>(&mut self, call: Call) -> bool {
        let Work { readings, written, .. } = self;
        match call {
            Call::Make => S::make(readings, written),
            Call::TurnBack => S::turn_back(written),
            Call::WriteRecord => S::write_record(written),
            Call::ReadRecord => S::read_record(written),
            _ => self.run_parts::<S>(call),
        }
    }

    fn run_parts<S: Parts>(&self, call: Call) -> bool {
        let windows = if call.is_of_drawn_windows() { &self.windows[..] } else { &[(0, N)] };
        match call {
            Call::FinishedWhole | Call::FinishedDrawn => S::draw_finished(self, windows),
            Call::StoppedWhole | Call::StoppedDrawn => S::draw_stopped(self, windows),
            Call::DayChange => S::change_days(self),
            _ => false,
        }
    }
}

impl Default for Work {
    fn default() -> Work {
        Work::new()
    }
}

/// The buffers that the calls write.
#[derive(PartialEq, Eq)]
pub struct Written {
    /// The table.
    pub coefficients: Vec<i32>,
    /// Its codes.
    pub codes: Vec<u8>,
    /// The table turned back.
    pub hours: Vec<i32>,
    /// The record of the table.
    pub record: Vec<u8>,
    /// The table read from the record.
    pub read_coefficients: Vec<i32>,
    /// Its codes.
    pub read_codes: Vec<u8>,
}

impl Written {
    pub(crate) fn new() -> Written {
        Written {
            coefficients: vec![0; N],
            codes: vec![0; N / 2],
            hours: vec![0; N],
            record: vec![0; RECORD],
            read_coefficients: vec![0; N],
            read_codes: vec![0; N / 2],
        }
    }
}
