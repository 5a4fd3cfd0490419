//! The calls as the archive exports them, and the only unsafe code of the project.
//!
//! A slice passes as its pointer, then its length. An empty slice passes Rust's pointer for it, which is aligned and
//! not null. Each function below hands the parts of its slices on and gives back what the store gives, unjudged.

use crate::column::{Column, ToldColumn, ToldRanges};
use crate::finished::{Answer, ToldAnswer, ToldChange, ToldFinished};
use crate::record::{ToldBytes, ToldCoefficient, ToldHours, ToldRecord};
use crate::refusal::Told;
use crate::table::Stretch;

// What every call must keep: each pointer comes with the length of its own live slice, and a slice to be written, which
// passes as `*mut`, is lent to that call alone.
//
// What every call may rely on: the store touches nothing outside these slices, only reads, if at all, those that pass
// as `*const`, and keeps no pointer. Rattle's references reach no further and end with the call, and its compiler is
// trusted for it.
extern "C" {
    fn sagivelume_places(n: usize) -> usize;

    fn sagivelume_record_bytes(n: usize) -> usize;

    fn sagivelume_make(
        n: usize,
        readings: *const i32,
        readings_length: usize,
        coefficients: *mut i32,
        coefficients_length: usize,
        codes: *mut u8,
        codes_length: usize,
    ) -> Told;

    fn sagivelume_turn_back(
        n: usize,
        coefficients: *const i32,
        coefficients_length: usize,
        codes: *const u8,
        codes_length: usize,
        hours: *mut i32,
        hours_length: usize,
    ) -> Told;

    fn sagivelume_rebuild(
        n: usize,
        counts: *const u16,
        counts_length: usize,
        flags: *const u8,
        flags_length: usize,
        start: i32,
        hours: *mut i32,
        hours_length: usize,
    ) -> Told;

    fn sagivelume_level(n: usize, j: usize, coefficients: *const i32, coefficients_length: usize) -> Stretch;

    fn sagivelume_write_record(
        n: usize,
        coefficients: *const i32,
        coefficients_length: usize,
        codes: *const u8,
        codes_length: usize,
        bytes: *mut u8,
        bytes_length: usize,
    ) -> ToldBytes;

    fn sagivelume_read_record(
        bytes: *const u8,
        bytes_length: usize,
        coefficients: *mut i32,
        coefficients_length: usize,
        codes: *mut u8,
        codes_length: usize,
    ) -> ToldHours;

    fn sagivelume_open_record(bytes: *const u8, bytes_length: usize) -> ToldRecord;

    fn sagivelume_ask(bytes: *const u8, bytes_length: usize, places: usize, place: usize) -> ToldCoefficient;

    fn sagivelume_edges(n: usize, a: usize, b: usize, w: usize, column: usize) -> ToldColumn;

    fn sagivelume_stopped(
        n: usize,
        coefficients: *const i32,
        coefficients_length: usize,
        codes: *const u8,
        codes_length: usize,
        a: usize,
        b: usize,
        w: usize,
        column: usize,
        depth: usize,
    ) -> ToldRanges;

    fn sagivelume_finished(
        n: usize,
        coefficients: *const i32,
        coefficients_length: usize,
        codes: *const u8,
        codes_length: usize,
        a: usize,
        b: usize,
        w: usize,
        column: usize,
    ) -> ToldFinished;

    fn sagivelume_join(left: ToldAnswer, right: ToldAnswer) -> ToldAnswer;

    fn sagivelume_day_change(
        n: usize,
        coefficients: *const i32,
        coefficients_length: usize,
        codes: *const u8,
        codes_length: usize,
        day: usize,
    ) -> ToldChange;
}

/// The coefficients of a table.
pub(crate) fn places(n: usize) -> usize {
    // SAFETY: as at the `extern` block: no slice passes.
    unsafe { sagivelume_places(n) }
}

/// The bytes of a record.
pub(crate) fn record_bytes(n: usize) -> usize {
    // SAFETY: as at the `extern` block: no slice passes.
    unsafe { sagivelume_record_bytes(n) }
}

/// Makes a table.
pub(crate) fn make(n: usize, readings: &[i32], coefficients: &mut [i32], codes: &mut [u8]) -> Told {
    // SAFETY: as at the `extern` block: three live slices with their lengths, the last two lent to this call alone.
    unsafe {
        sagivelume_make(
            n,
            readings.as_ptr(),
            readings.len(),
            coefficients.as_mut_ptr(),
            coefficients.len(),
            codes.as_mut_ptr(),
            codes.len(),
        )
    }
}

/// Turns a table back.
pub(crate) fn turn_back(n: usize, coefficients: &[i32], codes: &[u8], hours: &mut [i32]) -> Told {
    // SAFETY: as at the `extern` block: three live slices with their lengths, the last lent to this call alone.
    unsafe {
        sagivelume_turn_back(
            n,
            coefficients.as_ptr(),
            coefficients.len(),
            codes.as_ptr(),
            codes.len(),
            hours.as_mut_ptr(),
            hours.len(),
        )
    }
}

/// Rebuilds a series from the log of an old scale.
pub(crate) fn rebuild(n: usize, counts: &[u16], flags: &[u8], start: i32, hours: &mut [i32]) -> Told {
    // SAFETY: as at the `extern` block: three live slices with their lengths, the last lent to this call alone.
    unsafe {
        sagivelume_rebuild(
            n,
            counts.as_ptr(),
            counts.len(),
            flags.as_ptr(),
            flags.len(),
            start,
            hours.as_mut_ptr(),
            hours.len(),
        )
    }
}

/// The details of one level.
pub(crate) fn level(n: usize, j: usize, coefficients: &[i32]) -> Stretch {
    // SAFETY: as at the `extern` block: one live slice with its length, which is only read.
    unsafe { sagivelume_level(n, j, coefficients.as_ptr(), coefficients.len()) }
}

/// Writes a record.
pub(crate) fn write_record(n: usize, coefficients: &[i32], codes: &[u8], bytes: &mut [u8]) -> ToldBytes {
    // SAFETY: as at the `extern` block: three live slices with their lengths, the last lent to this call alone.
    unsafe {
        sagivelume_write_record(
            n,
            coefficients.as_ptr(),
            coefficients.len(),
            codes.as_ptr(),
            codes.len(),
            bytes.as_mut_ptr(),
            bytes.len(),
        )
    }
}

/// Reads a record.
pub(crate) fn read_record(bytes: &[u8], coefficients: &mut [i32], codes: &mut [u8]) -> ToldHours {
    // SAFETY: as at the `extern` block: three live slices with their lengths, the last two lent to this call alone.
    unsafe {
        sagivelume_read_record(
            bytes.as_ptr(),
            bytes.len(),
            coefficients.as_mut_ptr(),
            coefficients.len(),
            codes.as_mut_ptr(),
            codes.len(),
        )
    }
}

/// Opens a record.
pub(crate) fn open_record(bytes: &[u8]) -> ToldRecord {
    // SAFETY: as at the `extern` block: one live slice with its length, which is only read.
    unsafe { sagivelume_open_record(bytes.as_ptr(), bytes.len()) }
}

/// Asks a record of so many places for one coefficient.
pub(crate) fn ask(bytes: &[u8], places: usize, place: usize) -> ToldCoefficient {
    // SAFETY: as at the `extern` block: one live slice with its length, which is only read.
    unsafe { sagivelume_ask(bytes.as_ptr(), bytes.len(), places, place) }
}

/// The edges of a column.
pub(crate) fn edges(n: usize, Column { a, b, w, k }: Column) -> ToldColumn {
    // SAFETY: as at the `extern` block: numbers alone, and no slice.
    unsafe { sagivelume_edges(n, a, b, w, k) }
}

/// The answer of a column at a depth.
pub(crate) fn stopped(n: usize, coefficients: &[i32], codes: &[u8], column: Column, depth: usize) -> ToldRanges {
    let Column { a, b, w, k } = column;
    // SAFETY: as at the `extern` block: two live slices with their lengths, which are only read.
    unsafe {
        sagivelume_stopped(n, coefficients.as_ptr(), coefficients.len(), codes.as_ptr(), codes.len(), a, b, w, k, depth)
    }
}

/// The finished answer of a column.
pub(crate) fn finished(n: usize, coefficients: &[i32], codes: &[u8], column: Column) -> ToldFinished {
    let Column { a, b, w, k } = column;
    // SAFETY: as at the `extern` block: two live slices with their lengths, which are only read.
    unsafe {
        sagivelume_finished(n, coefficients.as_ptr(), coefficients.len(), codes.as_ptr(), codes.len(), a, b, w, k)
    }
}

/// Joins two answers.
pub(crate) fn join(left: Answer, right: Answer) -> ToldAnswer {
    // SAFETY: as at the `extern` block: numbers alone, and no slice.
    unsafe { sagivelume_join(ToldAnswer::of(left), ToldAnswer::of(right)) }
}

/// The change of a day.
pub(crate) fn day_change(n: usize, coefficients: &[i32], codes: &[u8], day: usize) -> ToldChange {
    // SAFETY: as at the `extern` block: two live slices with their lengths, which are only read.
    unsafe { sagivelume_day_change(n, coefficients.as_ptr(), coefficients.len(), codes.as_ptr(), codes.len(), day) }
}
