//! Rebuilding a series from the log of an old scale.

use super::{taken_or_refused, Call};
use crate::drawing::Drawing;
use crate::given::{Given, Head};
use crate::lent::Lent;
use crate::line::Line;
use crate::numbers::{draw_held, draw_lent_length, draw_n, draw_resized, Room, EDGES_OF_N, EDGE_LENGTHS, MOST};
use crate::old_logs::{draw_log, edge_logs, Log};

/// `rebuild n start | counts | flags | hours`
pub struct Rebuild {
    n: usize,
    log: Log,
    hours: Vec<i32>,
}

impl Rebuild {
    /// All hours of a log, rebuilt into a buffer that is just long enough.
    fn of(log: Log) -> Rebuild {
        let n = log.counts.len();
        Rebuild { n, log, hours: vec![-7; n] }
    }
}

impl Call for Rebuild {
    const NAME: &'static str = "rebuild";
    const OUTCOMES: &'static [&'static str] = &[
        "taken",
        "taken, nothing recorded",
        "refused 1",
        "refused 3",
        "refused 14",
        "refused 15",
        "refused 2 at the start",
        "refused 2 after the start",
    ];

    fn edges() -> Vec<Rebuild> {
        let mut calls: Vec<Rebuild> = edge_logs().into_iter().map(Rebuild::of).collect();
        // Every n at the edges, with each buffer in turn too short, just long enough and longer.
        for n in EDGES_OF_N {
            let needed = Room::of(n).hours;
            for length in EDGE_LENGTHS {
                for lengthened in 0..3 {
                    let as_lent = |buffer| if buffer == lengthened { length(needed) } else { needed };
                    let mut log = Log::climbing(-3, 1, needed);
                    log.counts.resize(as_lent(0), 9);
                    log.flags.resize(as_lent(1), 9);
                    calls.push(Rebuild { n, log, hours: vec![-7; as_lent(2)] });
                }
            }
        }
        calls.extend((0..1 << 5).map(with_causes));
        calls
    }

    fn draw(random: &mut Drawing) -> Rebuild {
        let n = draw_n(random);
        let room = Room::draw(random, n);
        let mut log = draw_log(random, room.hours);
        draw_resized(random, &mut log.counts);
        draw_resized(random, &mut log.flags);
        let hours = draw_lent_length(random, room.hours);
        Rebuild { n, log, hours: draw_held(random, hours) }
    }

    fn line(&self) -> String {
        let line = Line::call(Rebuild::NAME).number(self.n).number(self.log.start);
        line.buffer(&self.log.counts).buffer(&self.log.flags).buffer(&self.hours).end()
    }

    fn given(&self) -> Given {
        let needed = Room::of_series(self.n).map(|room| room.hours);
        let counts = Lent::holding("counts", &self.log.counts, needed);
        let flags = Lent::holding("flags", &self.log.flags, needed);
        let mut hours = Lent::holding("hours", &self.hours, needed);
        let rebuilt = sagivelume::rebuild(self.n, counts.part(), flags.part(), self.log.start, hours.part_mut());
        Given::new(Head::of(rebuilt)).read(&counts).read(&flags).written(&hours)
    }

    fn outcome(&self, head: &Head) -> String {
        let first = self.log.first_recorded().filter(|&hour| hour < self.n);
        match head {
            Head::Refused(refusal) if refusal.number == 2 => {
                let at_start = first == Some(refusal.place);
                String::from(if at_start { "refused 2 at the start" } else { "refused 2 after the start" })
            }
            Head::Taken(_) if first.is_none() => String::from("taken, nothing recorded"),
            _ => taken_or_refused(head),
        }
    }
}

/// Three hours with a set of causes, each a bit: n, a buffer short, a bad flag, another start, a weight out of range.
fn with_causes(causes: u32) -> Rebuild {
    let has = |cause: u32| causes >> cause & 1 == 1;
    let mut call = Rebuild::of(Log::climbing(if has(4) { 999_999 } else { 999_998 }, 1, 3));
    if has(0) {
        call.n = MOST + 1;
    }
    if has(1) {
        call.hours.pop();
    }
    if has(2) {
        call.log.flags[2] = 2;
    }
    if has(3) {
        call.log.start += 1;
    }
    call
}
