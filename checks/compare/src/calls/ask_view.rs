//! Asking a view, which holds any bytes and any number of places, for one coefficient.

use super::{outcome_of_record, Call};
use crate::drawing::Drawing;
use crate::drawn_records::{draw_place, draw_record};
use crate::given::{Given, Head};
use crate::lent::Lent;
use crate::line::Line;
use crate::numbers::{draw_held, Room, EVERY_P};
use crate::records::{far_places, hours_stated, record_of_equal, HEADER};

/// `ask_view places place | record`
pub struct AskView {
    places: usize,
    place: usize,
    bytes: Vec<u8>,
}

/// How many coefficients stand whole in some bytes.
fn reached(bytes: &[u8]) -> usize {
    bytes.len().saturating_sub(HEADER) / 3
}

/// How many bytes there are up to the end of a coefficient.
fn bytes_up_to(place: usize) -> usize {
    place.saturating_add(1).saturating_mul(3).saturating_add(HEADER)
}

/// Bytes of which no two neighbours are alike, with either sign, so that each coefficient shows its place.
fn counted(length: usize) -> Vec<u8> {
    (0..length).map(|place| (101 + 53 * place) as u8).collect()
}

/// Every place up to 4 and far ones, of so many places and so many bytes.
fn short_edges() -> Vec<AskView> {
    let mut calls = Vec::new();
    for bytes in (0..=16).map(counted) {
        for places in [0, 1, 2, 3, 4, usize::MAX] {
            for place in (0..=4).chain(far_places()) {
                calls.push(AskView { places, place, bytes: bytes.clone() });
            }
        }
    }
    calls
}

/// Coefficients of every three bytes that matter.
fn edges_of_signs() -> Vec<AskView> {
    const BYTES: [u8; 6] = [0, 1, 0x7f, 0x80, 0x81, 0xff];
    let mut calls = Vec::new();
    for (high, middle) in BYTES.into_iter().flat_map(|high| BYTES.map(|middle| (high, middle))) {
        for low in BYTES {
            let bytes = [vec![0; HEADER], vec![!high; 3], vec![high, middle, low], vec![!high; 3]].concat();
            calls.push(AskView { places: 2, place: 1, bytes });
        }
    }
    calls
}

impl Call for AskView {
    const NAME: &'static str = "ask_view";
    const OUTCOMES: &'static [&'static str] =
        &["taken", "refused 8 within the header", "refused 8 after the header", "refused 13"];

    fn edges() -> Vec<AskView> {
        let mut calls = short_edges();
        calls.extend(edges_of_signs());
        // Records of every P: around P, around the last whole coefficient, and cut where the one asked for ends.
        for p in EVERY_P {
            let record = record_of_equal(p);
            let reached = reached(&record);
            for (places, place) in [(p, 0), (p, p - 1), (p, p), (p, p + 1), (p - 1, p - 1), (2 * p, p)] {
                calls.push(AskView { places, place, bytes: record.clone() });
            }
            for place in [reached - 1, reached, reached + 1] {
                calls.push(AskView { places: usize::MAX, place, bytes: record.clone() });
            }
            for place in [0, p / 2, p - 1] {
                let end = bytes_up_to(place);
                calls.extend((end - 3..=end + 1).map(|length| AskView {
                    places: p,
                    place,
                    bytes: counted(length),
                }));
            }
        }
        calls
    }

    fn draw(random: &mut Drawing) -> AskView {
        let length = random.one_of(&[17, 400]);
        let length = random.below(length) as usize;
        let mut bytes = if random.once_in(2) { draw_held(random, length) } else { draw_record(random) };
        let reached = reached(&bytes);
        let places = match random.below(8) {
            0 => random.below(40) as usize,
            1 => draw_place(random, reached),
            2 => usize::MAX - random.below(3) as usize,
            _ => Room::of(hours_stated(&bytes)).coefficients,
        };
        let asked = if random.once_in(3) { reached } else { places };
        let place = draw_place(random, asked);
        if place < reached && random.once_in(8) {
            bytes.truncate(bytes_up_to(place) - random.below(2) as usize);
        }
        AskView { places, place, bytes }
    }

    fn line(&self) -> String {
        Line::call(AskView::NAME).number(self.places).number(self.place).buffer(&self.bytes).end()
    }

    fn given(&self) -> Given {
        let needed = (self.place < self.places).then(|| bytes_up_to(self.place));
        let record = Lent::holding("record", &self.bytes, needed);
        let asked = sagivelume::ask(record.part(), self.places, self.place);
        Given::new(Head::answering(asked.map(|coefficient| [coefficient]))).read(&record)
    }

    fn outcome(&self, head: &Head) -> String {
        outcome_of_record(head, &self.bytes)
    }
}
