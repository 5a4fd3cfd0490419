//! The calls that are compared.
//!
//! A new call is a file here with its [`Call`], and its line in `kinds!`.

use std::iter::successors;

use sagivelume::{Answer, Reading};

use crate::compared::{compare, compare_one, drawn, Compared, Difference};
use crate::drawing::Drawing;
use crate::given::{field, Given, Head};
use crate::numbers::Room;
use crate::records::{hours_stated, HEADER};
use crate::tally::Tally;

/// One kind of call: its numbers and what its buffers hold before.
pub trait Call: Sized {
    /// Its name in the second program's lines.
    const NAME: &'static str;

    /// Every outcome that it can have, each of which has to occur.
    const OUTCOMES: &'static [&'static str];

    /// The calls that every run makes, whatever its seed.
    fn edges() -> Vec<Self>;

    /// A drawn call.
    fn draw(random: &mut Drawing) -> Self;

    /// The call that is made after a drawn one, if one belongs to it: that of the next column.
    fn next(&self) -> Option<Self> {
        None
    }

    /// The call as a line for the second program.
    fn line(&self) -> String;

    /// What the proved store gives.
    fn given(&self) -> Given;

    /// Which of the outcomes this is.
    fn outcome(&self, head: &Head) -> String {
        taken_or_refused(head)
    }
}

/// `taken`, or `refused` with the number.
fn taken_or_refused(head: &Head) -> String {
    match head {
        Head::Refused(refusal) => format!("refused {}", refusal.number),
        _ => String::from("taken"),
    }
}

/// The same, with refusal 4 told apart by where the unsound node of a table of n hours stands.
fn outcome_of_table(head: &Head, n: usize) -> String {
    match head {
        Head::Refused(refusal) if refusal.number == 4 => {
            let node = match refusal.place {
                0 => "the root values",
                number if number < Room::of(n).codes => "a node above the pairs",
                _ => "a pair",
            };
            format!("refused 4 at {node}")
        }
        _ => taken_or_refused(head),
    }
}

/// The same, with refusal 8 told apart by where these bytes of a record end.
fn outcome_of_record(head: &Head, bytes: &[u8]) -> String {
    match head {
        Head::Refused(refusal) if refusal.number == 8 => {
            let end = if bytes.len() < HEADER { "within the header" } else { "after the header" };
            format!("refused 8 {end}")
        }
        _ => outcome_of_table(head, hours_stated(bytes)),
    }
}

/// The fields of an answer without its count, each absent if there is no reading.
fn answer_fields(answer: Answer) -> [String; 6] {
    let of = |reading: Option<Reading>| [field(reading.map(|of| of.hour)), field(reading.map(|of| of.grams))];
    let [first_hour, first] = of(answer.map(|summary| summary.first));
    let [last_hour, last] = of(answer.map(|summary| summary.last));
    let [low, high] = [field(answer.map(|summary| summary.low)), field(answer.map(|summary| summary.high))];
    [first_hour, first, last_hour, last, low, high]
}

/// One kind of call, whichever it is.
#[derive(Clone, Copy)]
pub struct Kind {
    /// Its name in the second program's lines.
    pub name: &'static str,
    /// Every outcome that it can have.
    pub outcomes: &'static [&'static str],
    /// Compares its edge calls and so many drawn ones of a seed, up to the first difference.
    pub compare: fn(seed: u64, calls: usize) -> Result<Tally, Box<Difference>>,
    /// The number of its edge calls.
    pub edges: fn() -> usize,
    /// Compares the first edge call and then every `step`-th, this many of them at most, and tells of each.
    pub soak_edges: fn(step: usize, most: usize, told: Told<'_>),
    /// Compares this many calls, drawn ones and those that belong to them, and tells of each.
    pub soak_drawn: fn(random: &mut Drawing, calls: usize, told: Told<'_>),
    /// The first edge call and then every `step`-th, as lines for the second program.
    pub edge_lines: fn(step: usize) -> Vec<String>,
    /// A drawn call and those that belong to it, as lines for the second program.
    pub drawn_lines: fn(random: &mut Drawing) -> Vec<String>,
}

/// Is told of each call.
pub type Told<'a> = &'a mut dyn FnMut(Result<Compared, Box<Difference>>);

impl Kind {
    /// The kind of a call.
    pub const fn of<C: Call>() -> Kind {
        Kind {
            name: C::NAME,
            outcomes: C::OUTCOMES,
            compare: compare::<C>,
            edges: || C::edges().len(),
            soak_edges: |step, most, told| {
                C::edges().iter().step_by(step).take(most).for_each(|call| told(compare_one(call)));
            },
            soak_drawn: |random, calls, told| {
                let mut left = calls;
                while left > 0 {
                    for compared in drawn::<C>(random).take(left) {
                        left -= 1;
                        told(compared);
                    }
                }
            },
            edge_lines: |step| C::edges().iter().step_by(step).map(C::line).collect(),
            drawn_lines: |random| successors(Some(C::draw(random)), C::next).map(|call| call.line()).collect(),
        }
    }
}

/// The kinds of calls, each with its file, its type, and the function of the boundary that it calls.
macro_rules! kinds {
    ($($file:ident $kind:ident $called:ident)*) => {
        $(
            mod $file;
            pub use $file::$kind;
        )*

        /// Every kind of call.
        pub const KINDS: &[Kind] = &[$(Kind::of::<$kind>()),*];

        #[cfg(test)]
        const CALLED: &[&str] = &[$(stringify!($called)),*];

        #[test]
        fn lines_of_all_kinds_are_calls() {
            $(tests::lines_are_calls::<$kind>();)*
        }
    };
}

kinds! {
    places Places sagivelume_places
    record_bytes RecordBytes sagivelume_record_bytes
    make Make sagivelume_make
    turn_back TurnBack sagivelume_turn_back
    rebuild Rebuild sagivelume_rebuild
    level Level sagivelume_level
    write_record WriteRecord sagivelume_write_record
    read_record ReadRecord sagivelume_read_record
    open Open sagivelume_open_record
    ask Ask sagivelume_ask
    ask_view AskView sagivelume_ask
    edges Edges sagivelume_edges
    stopped StoppedAt sagivelume_stopped
    finished FinishedColumn sagivelume_finished
    join Join sagivelume_join
    day_change DayChange sagivelume_day_change
}

#[cfg(test)]
mod tests {
    use std::collections::BTreeSet;
    use std::fs;
    use std::path::Path;

    use sagivelume::Refusal;
    use second::answer::answer;

    use super::*;

    /// Every call is one that the second program takes or refuses, and the same seed draws the same calls.
    pub fn lines_are_calls<C: Call>() {
        let drawn = |random: &mut Drawing| C::draw(random).line();
        let (mut random, mut again) = (Drawing::new(5), Drawing::new(5));
        for _ in 0..300 {
            let line = drawn(&mut random);
            assert_eq!(line, drawn(&mut again));
            assert!(line.starts_with(C::NAME));
            assert_ne!(answer(line.as_bytes()), second::answer::BAD_LINE, "{line}");
        }
        for call in C::edges() {
            assert_ne!(answer(call.line().as_bytes()), second::answer::BAD_LINE);
        }
    }

    /// A call of the boundary that is left out here, or in the program of the vectors, does not go unnoticed.
    #[test]
    fn every_call_of_the_boundary_is_compared() {
        let sources = Path::new(env!("CARGO_MANIFEST_DIR")).join("../../crates/vectors/src");
        let files = fs::read_dir(sources).expect("the program of the vectors").map(|file| file.expect("a file").path());
        let program: Vec<String> = files.map(|file| fs::read_to_string(file).expect("a source")).collect();
        let boundary = include_str!("../../../../crates/sagivelume_c/src/lib.rt");
        let mut exported = 0;
        for after in boundary.split("extern \"C\" fn ").skip(1) {
            let (name, _) = after.split_once('(').expect("parameters");
            assert!(CALLED.contains(&name), "no kind calls {name}");
            let call = format!("sagivelume::{name}(");
            assert!(program.iter().any(|file| file.contains(&call)), "no vectors call {name}");
            exported += 1;
        }
        let mut called = CALLED.to_vec();
        called.sort_unstable();
        called.dedup();
        assert_eq!(called.len(), exported, "a kind calls what the boundary does not have");
    }

    /// A kind that is left out does not go unnoticed, also where another kind makes the same call of the boundary.
    #[test]
    fn every_call_that_the_second_program_answers_is_compared() {
        let readme = include_str!("../../../second/README.md");
        let (_, table) = readme.split_once("\n| call | answer").expect("a table of the calls");
        let (table, _) = table.split_once("\n\n").expect("the end of the table");
        let names = table.lines().filter_map(|row| row.strip_prefix("| `")?.split([' ', '`']).next());
        let answered: BTreeSet<&str> = names.filter(|&name| name != "print").collect();
        let compared: BTreeSet<&str> = KINDS.iter().map(|kind| kind.name).collect();
        assert_eq!(compared, answered);
    }

    #[test]
    fn causes_of_a_refusal_are_told_apart() {
        let refused = |number, place| Head::Refused(Refusal { number, place });
        let record = [0, 0, 0, 31, 1, 0, 7];
        assert_eq!(outcome_of_record(&refused(8, 0), &record[..6]), "refused 8 within the header");
        assert_eq!(outcome_of_record(&refused(8, 0), &record), "refused 8 after the header");
        assert_eq!(outcome_of_record(&refused(4, 0), &record), "refused 4 at the root values");
        assert_eq!(outcome_of_record(&refused(4, 3), &record), "refused 4 at a node above the pairs");
        assert_eq!(outcome_of_record(&refused(4, 4), &record), "refused 4 at a pair");
        assert_eq!(outcome_of_record(&refused(11, 0), &record), "refused 11");
        assert_eq!(outcome_of_record(&Head::Taken(vec![]), &record), "taken");
    }
}
