//! The refusals that the header, this crate and the pages have, held against the source: each with its number and its
//! cause, and those of a call in the order of its checks in the definitions.

mod source;

use sagivelume::Refusal;

use source::{all_between, between, file, modules};

/// The numbers of a call's refusals, in the order in which the comment before it has them.
fn refusals(text: &str, call: &str) -> Vec<u8> {
    let (before, _) = text.split_once(call).unwrap_or_else(|| panic!("no {call}"));
    let comment = before.rsplit("\n\n").next().expect("a last part").split_whitespace();
    let mut words = comment.filter(|word| !["*", "//", "///"].contains(word));
    words.find(|word| word.trim_start_matches('[').starts_with("Refusals"));
    words.map_while(|word| word.trim_end_matches([',', '.', ':']).parse().ok()).collect()
}

/// The calls that refuse, each with the list of its checks in the definitions of om3.
const CHECKED: [(&str, &str); 11] = [
    ("make", "making_checks"),
    ("turn_back", "turning_back_checks"),
    ("rebuild", "rebuilding_checks"),
    ("write_record", "writing_checks"),
    ("read_record", "unpacking_checks"),
    ("open_record", "opening_checks"),
    ("ask", "view_checks"),
    ("edges", "edges_checks"),
    ("stopped", "stopped_checks"),
    ("finished", "finished_checks"),
    ("day_change", "day_checks"),
];

/// The number of what a check refuses, if a word of the definitions is one.
fn refused_by(word: &str) -> Option<u8> {
    Some(match word {
        "check_hours" => 1,
        "check_readings" | "check_weights" => 2,
        "check_room" => 3,
        "examine_table" | "examine_column" | "examine_before" => 4,
        "check_window" | "check_day" => 5,
        "check_column" => 6,
        "check_depth" => 7,
        "check_header" | "check_cut" | "check_reach" => 8,
        "check_version" => 9,
        "check_length" => 10,
        "check_after" => 11,
        "check_place" => 13,
        "check_flags" => 14,
        "check_start" => 15,
        _ => return None,
    })
}

#[test]
fn refusals_are_in_the_order_of_the_definitions() {
    let files = ["Calls", "OldLog", "RecordCalls", "Columns", "Stopped", "Finished", "Days"];
    let definitions = files.map(|name| file(&format!("crates/om3/specs/{name}.antt"))).concat();
    let boundary = file("crates/sagivelume_c/src/lib.rt");
    let library = file("crates/sagivelume/src/lib.rt");
    let header = file("user/include/sagivelume.h");
    let modules = modules();
    for (call, list) in CHECKED {
        let (checks, _) = between(&definitions, &format!("abbrev pub {list} "), "∷ []").expect(list);
        let mut order: Vec<u8> = checks.split_whitespace().filter_map(refused_by).collect();
        assert_eq!(order.len(), checks.matches('∷').count() + 1, "{list}");
        // Two checks of one number, one after the other, are one in the order that is told.
        order.dedup();
        assert_eq!(refusals(&boundary, &format!("fn sagivelume_{call}(")), order, "{call}");
        assert_eq!(refusals(&library, &format!("fn sagivelume_{call}(")), order, "{call}");
        assert_eq!(refusals(&header, &format!(" sagivelume_{call}(")), order, "{call}");
        assert_eq!(refusals(&modules, &format!("pub fn {call}(")), order, "{call}");
    }

    let calls = all_between(&boundary, "extern \"C\" fn sagivelume_", "(");
    let mut others = calls.into_iter().filter(|call| CHECKED.iter().all(|(checked, _)| checked != call));
    let none = ["places", "record_bytes", "level", "join"];
    assert!(others.all(|call| none.contains(&call)), "a call's refusals are held against nothing");
}

/// Word, number and cause of each refusal of the header's list.
fn listed(header: &str) -> Vec<[&str; 3]> {
    let rows = all_between(header, "REFUSAL(SAGIVELUME_", "\")").into_iter();
    rows.map(|row| {
        let (word, row) = row.split_once(", ").expect("a word");
        let (number, cause) = row.split_once(", \"").expect("a number and a cause");
        [word, number, cause]
    })
    .collect()
}

/// `BadHours` as a constant is `BAD_HOURS`.
fn constant(name: &str) -> String {
    let mut word = String::new();
    for letter in name.chars() {
        if letter.is_uppercase() && !word.is_empty() {
            word.push('_');
        }
        word.push(letter.to_ascii_uppercase());
    }
    word
}

#[test]
fn refusals_are_those_of_the_store() {
    let words = file("crates/words/src/lib.rt");
    let (numbers, _) = between(&words, "pub fn number_of", "\n}").expect("the numbers");
    let of_store: Vec<[String; 2]> = all_between(numbers, "Refusal::", ",")
        .into_iter()
        .map(|row| row.split_once(" => ").expect("a number"))
        .map(|(name, number)| [constant(name.trim_end_matches("(_)")), number.into()])
        .collect();
    assert_eq!(of_store.len(), 15);

    let header = file("user/include/sagivelume.h");
    let listed = listed(&header);
    let of_header: Vec<_> = listed.iter().map(|[word, number, _]| [word.to_string(), number.to_string()]).collect();
    assert_eq!(of_header, of_store);
    let own = file("user/rust/src/refusal.rs");
    for [word, number, cause] in listed {
        assert!(own.contains(&format!("\n    {word} {number} \"{cause}\"\n")), "{word}");
        assert_eq!(Refusal { number: number.parse().expect("a number"), place: 0 }.cause(), cause);
    }
}

/// The page of the package has each refusal with its cause, and that of the record those of reading in their order.
#[test]
fn pages_have_the_refusals() {
    let page = file("docs/PACKAGE.md");
    for [word, number, cause] in listed(&file("user/include/sagivelume.h")) {
        assert!(page.contains(&format!("\n| {number} | `{word}` | {cause}")), "{word}");
    }

    let record = file("docs/RECORD.md");
    let (_, table) = record.split_once("## What is refused").expect("a table");
    let numbers: Vec<u8> = all_between(table, "\n| ", " |").into_iter().filter_map(|row| row.parse().ok()).collect();
    let order = refusals(&file("crates/sagivelume_c/src/lib.rt"), "fn sagivelume_read_record(");
    assert_eq!(numbers, [order, vec![13]].concat());
}
