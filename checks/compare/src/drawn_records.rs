//! Records as they are drawn: those of drawn tables, as they are, cut, lengthened, changed or exchanged, and invented
//! ones.

use crate::drawing::{Drawing, Topic};
use crate::numbers::{draw_any_n, draw_held, draw_n, Room};
use crate::records::{far_places, record_of, record_of_equal, with_hours, with_length_field, HEADER, VERSION};
use crate::tables::draw_table;

/// What is drawn of records: as they are written of a table, changed after that, or invented.
#[rustfmt::skip]
pub const CHANGES: Topic = Topic {
    name: "record",
    drawn: &[
        "as written", "cut short", "bytes after it", "bits flipped", "one byte", "exchanged bytes", "version",
        "hours", "length", "hours and length", "any bytes",
    ],
};

/// A place: mostly below so many, often around them, seldom far.
pub fn draw_place(random: &mut Drawing, places: usize) -> usize {
    match random.below(8) {
        0 => random.one_of(&far_places()),
        1 | 2 => places.saturating_sub(2).saturating_add(random.below(5) as usize),
        _ => random.below(places.max(1) as u64) as usize,
    }
}

/// A record: often as it should be, though its table may be unsound or have too many hours, else changed in one way or
/// invented. A note is taken of which.
pub fn draw_record(random: &mut Drawing) -> Vec<u8> {
    let n = draw_n(random);
    let room = Room::draw(random, n);
    let mut bytes = record_of(n, &draw_table(random, room));
    match random.below(16) {
        0 => draw_cut(random, &mut bytes),
        1 => lengthen(random, &mut bytes),
        2 => flip(random, &mut bytes),
        3 => change_byte(random, &mut bytes),
        4 => exchange(random, &mut bytes),
        5 | 6 => draw_header(random, &mut bytes),
        7 => bytes = draw_invented(random),
        _ => random.note("as written"),
    }
    bytes
}

/// Puts another byte somewhere, often in the header.
fn change_byte(random: &mut Drawing, bytes: &mut [u8]) {
    random.note("one byte");
    let place = draw_byte(random, bytes);
    bytes[place] = bytes[place].wrapping_add(1 + random.below(255) as u8);
}

/// Exchanges two bytes anywhere, or two neighbours, often in the header.
fn exchange(random: &mut Drawing, bytes: &mut [u8]) {
    random.note("exchanged bytes");
    let place = draw_byte(random, bytes);
    let other = if random.once_in(2) { draw_byte(random, bytes) } else { (place + 1) % bytes.len() };
    bytes.swap(place, other);
}

/// The place of a byte, often in the header.
fn draw_byte(random: &mut Drawing, bytes: &[u8]) -> usize {
    let places = if random.once_in(3) { HEADER } else { bytes.len() };
    random.below(places as u64) as usize
}

/// Adds a few bytes, or up to as many again.
fn lengthen(random: &mut Drawing, bytes: &mut Vec<u8>) {
    random.note("bytes after it");
    let most = if random.once_in(4) { bytes.len() as u64 } else { 4 };
    let more = 1 + random.below(most) as usize;
    bytes.extend::<Vec<u8>>(draw_held(random, more));
}

/// Cuts bytes anywhere, just before their end, or in the first sixteen.
fn draw_cut(random: &mut Drawing, bytes: &mut Vec<u8>) {
    random.note("cut short");
    let length = match random.below(3) {
        0 => random.below(bytes.len() as u64) as usize,
        1 => bytes.len() - 1 - random.below(4) as usize,
        _ => random.below(16) as usize,
    };
    bytes.truncate(length);
}

/// Flips up to three bits, often in the header.
fn flip(random: &mut Drawing, bytes: &mut [u8]) {
    random.note("bits flipped");
    let flippable = if random.once_in(3) { HEADER } else { bytes.len() };
    for _ in 0..1 + random.below(3) {
        let bit = random.below(8 * flippable as u64) as usize;
        bytes[bit / 8] ^= 1 << (bit % 8);
    }
}

/// Another version, other hours, hours with the length that is theirs, or another length. The bytes stay as many or,
/// seldom, are cut.
fn draw_header(random: &mut Drawing, bytes: &mut Vec<u8>) {
    let n = draw_any_n(random);
    let stated = (bytes.len() - 4) as u32;
    match random.below(5) {
        0 => {
            random.note("version");
            bytes[VERSION] = random.below(256) as u8;
        }
        1 => {
            random.note("hours");
            *bytes = with_hours(bytes, n as u16);
        }
        2 => {
            random.note("hours and length");
            let length = Room::of(n).record() as u32 - 4;
            *bytes = with_hours(&with_length_field(bytes, length), n as u16);
        }
        near_or_far => {
            random.note("length");
            let near = stated.wrapping_add_signed(random.between(-9, 9));
            *bytes = with_length_field(bytes, if near_or_far == 3 { near } else { random.draw() as u32 });
        }
    }
    if random.once_in(4) {
        draw_cut(random, bytes);
    }
}

/// Any bytes, or a small record of any coefficients and codes.
fn draw_invented(random: &mut Drawing) -> Vec<u8> {
    random.note("any bytes");
    if random.once_in(2) {
        let length = random.below(40) as usize;
        return draw_held(random, length);
    }
    let n = 1 + random.below(4) as usize;
    let mut bytes = record_of_equal(n);
    let after_header = draw_held(random, bytes.len() - HEADER);
    bytes.truncate(HEADER);
    bytes.extend::<Vec<u8>>(after_header);
    bytes
}

#[cfg(test)]
mod tests {
    use std::collections::BTreeSet;

    use super::*;

    #[test]
    fn records_are_changed_in_every_way() {
        let mut random = Drawing::new(4);
        let mut notes = BTreeSet::new();
        for _ in 0..2_000 {
            draw_record(&mut random);
            notes.extend(random.notes());
        }
        assert!(CHANGES.drawn.iter().all(|change| notes.contains(change)));
    }
}
