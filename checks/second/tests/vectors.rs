//! The stored vectors, of `crates/vectors` and `crates/printer_vectors`, are what `second vectors` writes.

use std::collections::{BTreeMap, BTreeSet};

use second::vectors::{columns, old_logs, printer, records, tables, written, Vector};
use second::{finished, print, rebuild, stopped, turn_back, Column, Shape};

/// The programs that read them have room for so many bytes each, and half of it stays for calls to come.
const MOST_BYTES: usize = 2_097_152 / 2;

/// All files together have fewer bytes.
const STORED: usize = 2_000_000;

fn stored(program: &str, name: &str) -> Vec<u8> {
    let path = format!("{}/../../crates/{program}/{name}", env!("CARGO_MANIFEST_DIR"));
    std::fs::read(&path).unwrap_or_else(|error| panic!("{path}: {error}"))
}

#[test]
fn the_stored_files_are_those_written() {
    let mut bytes = 0;
    for files in written() {
        let program = files.program;
        assert!(files.input == stored(program, "stdin"), "{program}: write them again with `second vectors`");
        assert!(files.output == stored(program, "stdout"), "{program}: write them again with `second vectors`");
        assert!(files.input.len() <= MOST_BYTES, "{program}");
        bytes += files.input.len() + files.output.len();
    }
    assert!(bytes < STORED, "{bytes}");
}

/// Every number that stands before these words on a page, whose lines are joined, in the form 6,244.
fn stated(page: &str, words: &str) -> Vec<usize> {
    let page = page.split_whitespace().collect::<Vec<_>>().join(" ");
    let words = format!(" {words}");
    let before = page.match_indices(&words).map(|(at, _)| &page[..at]);
    before.filter_map(|text| text.rsplit(' ').next()?.replace(',', "").parse().ok()).collect()
}

/// The pages that say how many vectors there are say it right, and one says it.
#[test]
fn the_pages_count_the_vectors() {
    let pages = [include_str!("../../../README.md"), include_str!("../../../docs/HOUSE.md")];
    let [calls, runs] = written().map(|files| files.outcomes.values().sum::<usize>());
    let texts: BTreeSet<Vec<u8>> = printer::calls().into_iter().map(|call| call.input).collect();
    for (words, count) in [("calls of the boundary", calls), ("texts for the printer", texts.len()), ("runs", runs)] {
        let figures: Vec<usize> = pages.iter().flat_map(|page| stated(page, words)).collect();
        assert!(!figures.is_empty(), "no page says how many {words}");
        assert!(figures.iter().all(|&figure| figure == count), "{figures:?} {words}, and {count} are there");
    }
}

/// Each call with the refusals that it has, and how many calls have each of its outcomes at least.
const OUTCOMES: [(&str, &[u8], usize); 13] = [
    ("make", &[1, 2, 3], 10),
    ("turn_back", &[1, 3, 4], 10),
    ("write_record", &[1, 3, 4], 8),
    ("read_record", &[1, 3, 4, 8, 9, 10, 11], 8),
    ("open", &[1, 8, 9, 10, 11], 8),
    ("ask_view", &[8, 13], 8),
    ("ask", &[1, 8, 9, 10, 11, 13], 8),
    ("edges", &[1, 5, 6], 5),
    ("stopped", &[1, 3, 4, 5, 6, 7], 5),
    ("finished", &[1, 3, 4, 5, 6], 5),
    ("join", &[], 5),
    ("day_change", &[1, 3, 4, 5], 5),
    ("rebuild", &[1, 2, 3, 14, 15], 10),
];

fn refuses_nothing(outcome: &str) -> bool {
    outcome.starts_with("level") || outcome.starts_with("sizes")
}

/// Whether these are the outcomes, those of a level and of sizes aside, which refuse nothing.
fn assert_outcomes(outcomes: &BTreeMap<String, usize>, calls: &[(&str, &[u8], usize)]) {
    let mut expected = BTreeSet::new();
    for (name, numbers, least) in calls {
        let refused = numbers.iter().map(|number| format!("{name} refused {number}"));
        for outcome in refused.chain([format!("{name} taken")]) {
            assert!(outcomes.get(&outcome) >= Some(least), "{outcome}");
            expected.insert(outcome);
        }
    }
    let found: BTreeSet<String> = outcomes.keys().filter(|name| !refuses_nothing(name)).cloned().collect();
    assert_eq!(found, expected);
}

#[test]
fn every_outcome_of_every_call_is_there() {
    let [of_calls, of_printer] = written().map(|files| files.outcomes);
    assert_outcomes(&of_calls, &OUTCOMES);
    assert_outcomes(&of_printer, &[("print", &[12, 1, 2, 5, 6], 20)]);
    let others: Vec<&str> = of_calls.keys().map(String::as_str).filter(|name| refuses_nothing(name)).collect();
    assert_eq!(others, ["level found", "level of length 0", "sizes of no series", "sizes told"]);
}

/// Each kind of call, how many numbers it takes, and then how many buffers.
#[rustfmt::skip]
const TAKEN: [(usize, usize, usize); 15] = [
    (1, 1, 3), (2, 1, 3), (3, 2, 1), (4, 1, 0), (5, 2, 3),
    (11, 1, 3), (12, 0, 3), (13, 0, 1), (14, 2, 1), (15, 1, 1),
    (21, 5, 0), (22, 6, 2), (23, 5, 2), (24, 14, 0), (25, 2, 2),
];

/// The calls are taken apart by what is told of them alone: each buffer is as long as it says, and in it no number
/// follows itself.
#[test]
fn the_calls_can_be_taken_apart() {
    let text = String::from_utf8(stored("vectors", "stdin")).unwrap();
    let mut words = text.split_ascii_whitespace();
    let mut number = || words.next().map(|word| word.split_once('*').unwrap_or((word, "1")));
    let mut calls = [0; TAKEN.len()];
    while let Some((kind, "1")) = number() {
        let kind = kind.parse::<usize>().unwrap();
        let place = TAKEN.iter().position(|taken| taken.0 == kind).expect("a kind");
        calls[place] += 1;
        let (_, numbers, buffers) = TAKEN[place];
        assert!((0..numbers).all(|_| number().unwrap().1 == "1"));
        for _ in 0..buffers {
            let (mut left, mut before) = (number().unwrap().0.parse::<usize>().unwrap(), "");
            while left > 0 {
                let (grams, times) = number().unwrap();
                assert_ne!(grams, before);
                (left, before) = (left.checked_sub(times.parse().unwrap()).unwrap(), grams);
            }
        }
    }
    assert!(calls.iter().all(|&count| count >= 75) && calls.iter().sum::<usize>() >= 6_000, "{calls:?}");
}

#[test]
fn every_length_is_made_and_turned_back() {
    let (mut made, mut turned_back) = (BTreeSet::new(), BTreeSet::new());
    for call in tables::calls() {
        match (&call, call.clone().answer().0.as_str()) {
            (tables::Call::Make { n, .. }, "make taken") => made.insert(*n),
            (tables::Call::TurnBack { n, .. }, "turn_back taken") => turned_back.insert(*n),
            _ => false,
        };
    }
    for n in [1, 2, 3, 5, 7, 8, 9, 15, 16, 17, 63, 64, 65, 1_000, 16_383, 16_384] {
        assert!(made.contains(&n) && turned_back.contains(&n), "{n}");
    }
}

/// Short logs and the longest are rebuilt, with all hours recorded and with some; bad flags and weights out of range
/// are told at the first and at the last hour of all.
#[test]
fn old_logs_of_every_sort_are_there() {
    let (mut whole, mut partly, mut told) = (BTreeSet::new(), BTreeSet::new(), BTreeSet::new());
    for old_logs::Call { n, start, counts, flags, mut hours } in old_logs::calls() {
        match rebuild(n, &counts, &flags, start, &mut hours) {
            Ok(()) if flags[..n as usize].contains(&0) => partly.insert(n),
            Ok(()) => whole.insert(n),
            Err(refusal) => told.insert((refusal.number, refusal.place)),
        };
    }
    assert!([1, 2, 3, 5, 8, 9, 33, 200].iter().all(|n| whole.contains(n)), "{whole:?}");
    assert!([1, 3, 5, 8, 9, 33, 200, 16_384].iter().all(|n| partly.contains(n)), "{partly:?}");
    assert!([2, 14].iter().all(|&number| told.contains(&(number, 0)) && told.contains(&(number, 16_383))), "{told:?}");
}

/// The lengths of the records that are written and of those that are read.
fn lengths_taken() -> (BTreeSet<usize>, BTreeSet<usize>) {
    let (mut written, mut read) = (BTreeSet::new(), BTreeSet::new());
    for call in records::calls() {
        match (&call, call.clone().answer().0.as_str()) {
            (records::Call::Write { record, .. }, "write_record taken") => written.insert(record.len()),
            (records::Call::Read { record, .. }, "read_record taken") => read.insert(record.len()),
            _ => false,
        };
    }
    (written, read)
}

#[test]
fn every_p_is_written_or_read() {
    let (written, read) = lengths_taken();
    for p in (1..=14).map(|l| 1_usize << l) {
        let bytes = 7 + 3 * p + p / 2;
        assert!(written.contains(&bytes) || read.contains(&bytes), "{p}");
    }
    for bytes in [14, 57_351] {
        assert!(written.contains(&bytes) && read.contains(&bytes), "{bytes}");
    }
}

#[test]
fn a_record_written_is_the_record_read() {
    let calls = records::calls();
    let written: BTreeSet<Vec<u8>> = calls.iter().filter_map(written_exactly).collect();
    let read = calls.into_iter().filter_map(|call| match &call {
        records::Call::Read { record, .. } if call.clone().answer().0 == "read_record taken" => Some(record.clone()),
        _ => None,
    });
    assert!(read.filter(|record| written.contains(record)).count() >= 40);
}

/// The record that a call writes, if it fills the buffer lent.
fn written_exactly(call: &records::Call) -> Option<Vec<u8>> {
    let records::Call::Write { n, coefficients, codes, record } = call else {
        return None;
    };
    let mut record = record.clone();
    let bytes = second::write_record(*n, coefficients, codes, &mut record).ok()?;
    (bytes as usize == record.len()).then_some(record)
}

#[test]
fn every_depth_is_stopped_at() {
    let (mut taken, mut too_deep) = (BTreeSet::new(), BTreeSet::new());
    for call in columns::calls() {
        match (&call, call.clone().answer().0.as_str()) {
            (columns::Call::Stopped { table, depth, .. }, "stopped taken") => taken.insert((table.n, *depth)),
            (columns::Call::Stopped { table, depth, .. }, "stopped refused 7") => too_deep.insert((table.n, *depth)),
            _ => false,
        };
    }
    for n in [1, 2, 3, 5, 7, 8, 9, 16, 17, 40] {
        let l = Shape::of(n).unwrap().l;
        assert!((0..=l).all(|depth| taken.contains(&(n, depth))), "{n}");
        assert!(too_deep.contains(&(n, l + 1)), "{n}");
    }
    assert!(taken.contains(&(16_384, 14)));
}

/// The damaged tables of which finished columns are asked: those refused at an opened node, those refused on a walk,
/// and those taken, since nobody looks where they are unsound.
#[test]
fn damage_is_met_on_every_way() {
    let (mut opened, mut walked, mut unseen) = (0, 0, 0);
    for call in columns::calls() {
        let columns::Call::Finished { table, column } = &call else {
            continue;
        };
        let columns::Table { n, coefficients, codes } = table;
        let mut hours = vec![0; 16_384];
        let sound = turn_back(*n, coefficients, codes, &mut hours).is_ok();
        let at_depth_l = |l: u64| stopped(*n, coefficients, codes, *column, l);
        match call.clone().answer().0.as_str() {
            "finished refused 4" if at_depth_l(Shape::of(*n).unwrap().l).is_err() => opened += 1,
            "finished refused 4" => walked += 1,
            "finished taken" if !sound => unseen += 1,
            _ => {}
        }
    }
    assert!(opened >= 50 && walked >= 20 && unseen >= 50, "{opened} {walked} {unseen}");
}

#[test]
fn columns_without_an_hour_and_without_a_reading_are_there() {
    let (mut no_hour, mut no_reading) = (0, 0);
    for call in columns::calls() {
        if let columns::Call::Finished { table, column } = &call {
            let finished = second::finished(table.n, &table.coefficients, &table.codes, *column);
            let more_columns_than_hours = |Column { a, b, w, .. }: Column| w > b - a;
            match finished.map(|finished| (finished.answer, finished.count)) {
                Ok((None, 0)) => no_hour += usize::from(more_columns_than_hours(*column)),
                Ok((None, _)) => no_reading += 1,
                _ => {}
            }
        }
    }
    assert!(no_hour >= 20 && no_reading >= 20, "{no_hour} {no_reading}");
}

/// What a call on a day with hours before it is for.
fn sort_of_day(table: &columns::Table, day: u64) -> &'static str {
    let columns::Table { n, coefficients, codes } = table;
    let over = |a, b| finished(*n, coefficients, codes, Column { a, b, w: 1, k: 0 }).map(|told| told.answer);
    let first = 24 * day;
    match (over(first, (first + 24).min(*n)), over(0, first)) {
        (Err(day), Err(before)) if day != before => "the day and the hours before are damaged",
        (Err(_), _) => "the day is damaged",
        (Ok(None), Err(_)) => "no reading, and the hours before are damaged",
        (Ok(None), _) => "no reading",
        (Ok(_), Err(_)) => "the hours before are damaged",
        (Ok(_), Ok(None)) => "no reading before",
        (Ok(_), Ok(Some(before))) if before.last.hour + 24 < first => "after a gap of days",
        _ => "after a reading of the day before",
    }
}

#[test]
fn days_of_every_sort_are_there() {
    let mut sorts: BTreeMap<&str, usize> = BTreeMap::new();
    for call in columns::calls() {
        let columns::Call::DayChange { table, day } = &call else {
            continue;
        };
        let asked = call.clone().answer().0;
        if *day > 0 && ["day_change taken", "day_change refused 4"].contains(&asked.as_str()) {
            *sorts.entry(sort_of_day(table, *day)).or_default() += 1;
        }
    }
    assert!(sorts.len() == 8 && sorts.values().all(|&calls| calls >= 10), "{sorts:?}");
}

/// Takes apart the text that the program of the printer reads, by what is told of it alone.
fn taken_apart(mut text: &[u8]) -> Vec<(Vec<u8>, usize)> {
    let mut calls = Vec::new();
    while !text.is_empty() {
        let end = text.iter().position(|&byte| byte == b'\n').expect("a line");
        let head = std::str::from_utf8(&text[..end]).expect("two numbers");
        let (length, piece) = head.split_once(' ').expect("two numbers");
        let (length, piece): (usize, usize) = (length.parse().expect("a number"), piece.parse().expect("a number"));
        let (input, after) = text[end + 1..].split_at(length);
        calls.push((input.to_vec(), piece));
        text = after;
    }
    calls
}

#[test]
fn the_inputs_of_the_printer_can_be_taken_apart() {
    let input = stored("printer_vectors", "stdin");
    assert!(input.len() < 1_000_000);
    let calls = taken_apart(&input);
    let outputs: Vec<u8> = calls.iter().flat_map(|(input, _)| [&print(input)[..], b"\n"].concat()).collect();
    assert!(outputs == stored("printer_vectors", "stdout"));
    assert!(calls.iter().all(|&(_, piece)| piece > 0));
}

/// Every input but the long ones is handed over byte by byte, and every one that is short, with little printed for it,
/// in pieces of each size; no input stands twice.
#[test]
fn the_inputs_of_the_printer_come_in_pieces() {
    let mut pieces: BTreeMap<Vec<u8>, Vec<usize>> = BTreeMap::new();
    for printer::Call { input, piece } in printer::calls() {
        pieces.entry(input).or_default().push(piece);
    }
    assert_eq!(pieces.len(), printer::inputs().len());
    for (input, sizes) in &pieces {
        let short = input.len() < 200 && print(input).len() < 500;
        let expected: Vec<usize> = [1, 2, 3, 7].into_iter().filter(|&size| size < input.len()).collect();
        assert!(!short || sizes.starts_with(&expected), "{sizes:?}");
        assert!(!short || sizes.iter().any(|&size| size >= input.len()), "{sizes:?}");
        assert!(input.len() >= 20_000 || print(input).len() >= 20_000 || sizes.contains(&1), "{sizes:?}");
    }
    let long = |sizes: &Vec<usize>| if sizes.len() == 1 { Some(sizes[0]) } else { None };
    let of_long: BTreeSet<usize> =
        pieces.iter().filter(|(input, _)| input.len() > 30_000).filter_map(|(_, sizes)| long(sizes)).collect();
    assert!(of_long.into_iter().eq([1, 7, 4_096, 1_000_000]));
}

/// The bytes of every sort of line, the numbers of lines and hours past 16 bits, and the longest series in the most
/// columns are among the inputs of the printer.
#[test]
fn the_inputs_of_the_printer_reach_the_bounds() {
    let inputs = printer::inputs();
    let printed: Vec<String> = inputs.iter().map(|input| String::from_utf8(print(input)).unwrap()).collect();
    assert!(printed.iter().filter(|text| text.lines().count() == 4_097).count() >= 2);
    let refused: BTreeSet<&str> = printed.iter().map(|text| text.trim_end()).collect();
    for text in ["refused 12 at 1", "refused 12 at 16386", "refused 12 at 65538"] {
        assert!(refused.contains(text), "{text}");
    }
    assert!(refused.contains("refused 2 at 16383") && refused.contains("refused 2 at 0"));
    let lines = |input: &Vec<u8>| input.split(|&byte| byte == b'\n').map(<[u8]>::len).collect::<Vec<_>>();
    let of_first: BTreeSet<usize> = inputs.iter().map(|input| lines(input)[0]).collect();
    let of_hours: BTreeSet<usize> = inputs.iter().flat_map(|input| lines(input).split_off(1)).collect();
    for length in (0..=9).chain(16..=20).chain([1_000]) {
        assert!(of_hours.contains(&length), "{length}");
        assert!(of_first.contains(&length), "{length}");
    }
}
