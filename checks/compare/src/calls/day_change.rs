//! The change of a day.

use std::rc::Rc;

use sagivelume::Column;
use second::Shape;

use super::Call;
use crate::columns::FAR;
use crate::days::{self, hours_before, hours_of, DAY};
use crate::drawing::Drawing;
use crate::given::{field, Given, Head};
use crate::lent_tables::{self, draw_lent, LentTable, UNSOUND_ELSEWHERE};
use crate::line::Line;
use crate::numbers::{draw_n, MOST};

/// Of a drawn table with so many days or fewer, every day from the drawn one on is compared.
const FEW_DAYS: usize = 7;

/// How a call ended that answers "no reading", though a finished column over the hours before would be refused.
const UNSOUND_BEFORE: &str = "taken without a reading, unsound before";

/// `day_change n day | coefficients | codes`
pub struct DayChange {
    table: Rc<LentTable>,
    day: usize,
}

impl DayChange {
    /// The first and the last days of a table, the day after, and far ones.
    fn days_of(table: &Rc<LentTable>) -> impl Iterator<Item = DayChange> + '_ {
        let after = table.n.min(MOST).div_ceil(DAY);
        let days = (0..=after).filter(move |&day| day < 5 || day + 3 > after);
        days.chain(FAR).map(|day| DayChange { table: Rc::clone(table), day })
    }

    /// The hours of the day, as a column.
    fn hours(&self) -> Column {
        hours_of(self.day, self.table.n)
    }

    /// What to say of a call if it was taken.
    fn taken(&self, head: &Head) -> &'static str {
        let Column { a, b, .. } = self.hours();
        let without = head.fields().iter().any(|change| change == "-");
        match self.table.finished(hours_before(self.day)) {
            Err(_) if without && self.day > 0 => UNSOUND_BEFORE,
            _ if without => "taken without a reading",
            Ok(None) => "taken with no reading before",
            Ok(Some(before)) if before.last.hour as usize + DAY < a => "taken after a gap of days",
            _ if b.saturating_sub(a) < DAY => "taken of a short day",
            _ => "taken of a whole day",
        }
    }

    /// Where the unsound node stands: for the day itself, there and in the hours before it, or in those alone, where
    /// the walk to the last reading does not meet it if there is a reading after its hours.
    fn outcome_of_4(&self, head: &Head, place: usize) -> String {
        let before = hours_before(self.day);
        match (self.table.finished(self.hours()), self.table.finished(before)) {
            (Err(of_day), Err(of_before)) if self.day > 0 && of_day != of_before => {
                String::from("refused 4 of the day, with another before it")
            }
            (Err(_), _) => self.table.outcome(head, self.hours(), ""),
            (Ok(_), _) => {
                let shape = Shape::of(self.table.n as u64).expect("refusal 4 comes after 1");
                let after = shape.node(place as u64).hours.end as usize;
                let walk = if self.table.reads(Column { a: after, ..before }) { "first alone" } else { "last" };
                format!("refused 4 before the day, on the walk to the {walk}")
            }
        }
    }
}

impl Call for DayChange {
    const NAME: &'static str = "day_change";
    const OUTCOMES: &'static [&'static str] = &[
        "taken of a whole day",
        "taken of a short day",
        "taken after a gap of days",
        "taken with no reading before",
        "taken without a reading",
        UNSOUND_BEFORE,
        UNSOUND_ELSEWHERE,
        "refused 1",
        "refused 3",
        "refused 4 at the root values",
        "refused 4 at an opened node above the pairs",
        "refused 4 at an opened pair",
        "refused 4 on a walk, above the pairs",
        "refused 4 on a walk, at a pair",
        "refused 4 of the day, with another before it",
        "refused 4 before the day, on the walk to the first alone",
        "refused 4 before the day, on the walk to the last",
        "refused 5",
    ];

    fn edges() -> Vec<DayChange> {
        let mut tables = [lent_tables::damaged_tables(), lent_tables::causes_in_tables()].concat();
        tables.extend([lent_tables::tables_of_edges(), lent_tables::tables_of_edge_lengths()].concat());
        tables.extend(days::edge_tables());
        tables.extend([100, 1_000].map(lent_tables::long_table));
        let mut calls: Vec<DayChange> = tables.iter().flat_map(DayChange::days_of).collect();
        for table in days::damaged_tables() {
            calls.extend((0..3).map(|day| DayChange { table: Rc::clone(&table), day }));
        }
        let longest = lent_tables::long_table(MOST);
        calls.extend((0..=MOST / DAY).map(|day| DayChange { table: Rc::clone(&longest), day }));
        calls
    }

    fn draw(random: &mut Drawing) -> DayChange {
        if random.once_in(2) {
            let (table, day) = days::draw_day(random);
            return DayChange { table, day };
        }
        let n = draw_n(random);
        let days = n.clamp(1, MOST).div_ceil(DAY);
        let day = match random.below(16) {
            0 => random.one_of(&FAR),
            1 => days + random.below(3) as usize,
            2 | 3 => days - 1,
            _ => random.below(days as u64) as usize,
        };
        DayChange { table: draw_lent(random, n, hours_of(day, n)), day }
    }

    fn next(&self) -> Option<DayChange> {
        let (day, days) = (self.day.checked_add(1)?, self.table.n.div_ceil(DAY));
        (day < days && days <= FEW_DAYS).then(|| DayChange { table: Rc::clone(&self.table), day })
    }

    fn line(&self) -> String {
        self.table.end(Line::call(DayChange::NAME).number(self.table.n).number(self.day))
    }

    fn given(&self) -> Given {
        self.table.given(|coefficients, codes| {
            let change = sagivelume::day_change(self.table.n, coefficients, codes, self.day);
            Head::answering(change.map(|change| [field(change)]))
        })
    }

    fn outcome(&self, head: &Head) -> String {
        match (head, self.taken(head)) {
            (Head::Refused(refusal), _) if refusal.number == 4 => self.outcome_of_4(head, refusal.place),
            (Head::Taken(_), UNSOUND_BEFORE) => String::from(UNSOUND_BEFORE),
            (_, taken) => self.table.outcome(head, self.hours(), taken),
        }
    }
}
