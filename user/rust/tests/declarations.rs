//! The C header, and this crate's own declarations, held against the boundary's source in Rattle: the same functions in
//! the same order, with the same parameters of the same width, the same structs with the same fields, and the same
//! constants. A linker checks none of it.

mod source;

use sagivelume::{Refusal, GAP, LARGEST_HOURS, LARGEST_READING};
use sagivelume::{MOST_CODES, MOST_COEFFICIENTS, MOST_COLUMNS, MOST_RECORD_BYTES};

use source::{all_between, between, file, modules};

/// A function or a struct, with types as Rust writes them.
#[derive(Debug, PartialEq, Eq, PartialOrd, Ord)]
struct Declared {
    name: String,
    /// Each parameter or field, in order: its name and its type.
    parts: Vec<[String; 2]>,
    /// What a function gives back; empty for a struct.
    gives: String,
}

/// `name: type`, in Rattle or in Rust. A slice of Rattle passes as a pointer and then a length.
fn of_rust(part: &str) -> Vec<[String; 2]> {
    let (name, held) = part.split_once(": ").unwrap_or_else(|| panic!("no type: {part}"));
    let name = name.trim_start_matches("pub ").trim_start_matches("pub(crate) ");
    let pointer = held
        .strip_prefix("&mut [")
        .map(|of| format!("*mut {of}"))
        .or(held.strip_prefix("&[").map(|of| format!("*const {of}")));
    match pointer {
        None => vec![[name.into(), held.into()]],
        Some(pointer) => {
            vec![[name.into(), pointer.trim_end_matches(']').into()], [format!("{name}_length"), "usize".into()]]
        }
    }
}

/// `type name` in C.
fn of_c(part: &str) -> Vec<[String; 2]> {
    let (held, name) = part.rsplit_once(' ').unwrap_or_else(|| panic!("no type: {part}"));
    let pointed = held.trim_start_matches("const ").trim_start_matches("struct ");
    let held = match (name.strip_prefix('*'), held.starts_with("const ")) {
        (None, _) => c_type(pointed),
        (Some(_), true) => format!("*const {}", c_type(pointed)),
        (Some(_), false) => format!("*mut {}", c_type(pointed)),
    };
    vec![[name.trim_start_matches('*').into(), held]]
}

/// A type of C: `sagivelume_told_bytes` is `ToldBytes`.
fn c_type(name: &str) -> String {
    match name {
        "size_t" => "usize".into(),
        "int32_t" => "i32".into(),
        "uint8_t" => "u8".into(),
        "uint16_t" => "u16".into(),
        _ => {
            let words = name.strip_prefix("sagivelume_").unwrap_or_else(|| panic!("{name}")).split('_');
            words.map(|word| word[..1].to_uppercase() + &word[1..]).collect()
        }
    }
}

/// The parts of a list, apart from where its lines break.
fn parts(list: &str, separator: char, of: fn(&str) -> Vec<[String; 2]>) -> Vec<[String; 2]> {
    let lines = list.split(separator).map(|part| part.split_whitespace().collect::<Vec<_>>().join(" "));
    lines.filter(|part| !part.is_empty()).flat_map(|part| of(&part)).collect()
}

/// A function of Rattle or Rust, `name(parts) -> gives`.
fn function(text: &str) -> Declared {
    let (name, rest) = text.split_once('(').expect("parameters");
    let (list, gives) = rest.split_once(") -> ").expect("an answer");
    Declared { name: name.into(), parts: parts(list, ',', of_rust), gives: gives.trim().into() }
}

/// The functions of a file of Rattle that C can call.
fn rattle_functions(text: &str) -> Vec<Declared> {
    all_between(text, "extern \"C\" fn ", "\n    ensures").into_iter().map(function).collect()
}

/// The structs of a file of Rattle or Rust that C takes as they are.
fn structs(text: &str) -> Vec<Declared> {
    let declared = all_between(text, "#[repr(C)]\n", "}").into_iter().map(|text| {
        let (_, text) = text.split_once("struct ").expect("a struct");
        let (name, fields) = text.split_once(" {").expect("fields");
        Declared { name: name.into(), parts: parts(fields, ',', of_rust), gives: String::new() }
    });
    declared.collect()
}

/// The functions of the header.
fn c_functions(header: &str) -> Vec<Declared> {
    let declared = header.split(";\n").filter_map(|text| {
        let (head, list) = text.strip_suffix(')')?.rsplit_once('(')?;
        let (gives, name) = head.lines().last()?.rsplit_once(' ')?;
        let gives = c_type(gives.trim_start_matches("struct "));
        Some(Declared { name: name.into(), parts: parts(list, ',', of_c), gives })
    });
    declared.collect()
}

/// The structs of the header.
fn c_structs(header: &str) -> Vec<Declared> {
    let declared = all_between(header, "\nstruct ", "\n}").into_iter().filter_map(|text| {
        let (name, fields) = text.split_once(" {\n")?;
        Some(Declared { name: c_type(name), parts: parts(fields, ';', of_c), gives: String::new() })
    });
    declared.collect()
}

fn sorted(mut declared: Vec<Declared>) -> Vec<Declared> {
    declared.sort();
    declared
}

#[test]
fn functions_are_those_of_the_boundary() {
    let boundary = file("crates/sagivelume_c/src/lib.rt");
    let exported = rattle_functions(&boundary);
    assert_eq!(exported.len(), boundary.matches("#[unsafe(no_mangle)]").count());
    assert_eq!(rattle_functions(&file("crates/sagivelume/src/lib.rt")), exported);

    assert_eq!(c_functions(&file("user/include/sagivelume.h")), exported);

    let linked = file("user/rust/src/linked.rs");
    let (block, _) = between(&linked, "extern \"C\" {", "\n}").expect("a block");
    let linked: Vec<Declared> = all_between(block, "fn ", ";").into_iter().map(function).collect();
    assert_eq!(linked, exported);
}

#[test]
fn structs_are_those_of_the_boundary() {
    let told = ["words/src/lib", "told/src/tables", "told/src/records", "told/src/columns"];
    let told = told.map(|name| file(&format!("crates/{name}.rt")));
    let told = sorted(told.iter().flat_map(|text| structs(text)).collect());
    assert_eq!(told.len(), 11);
    assert_eq!(sorted(c_structs(&file("user/include/sagivelume.h"))), told);
    assert_eq!(sorted(structs(&modules())), told);
}

#[test]
fn constants_are_those_of_the_store() {
    let words = file("crates/words/src/lib.rt");
    let of_store = |name| {
        let (declared, _) = between(&words, &format!("pub const {name}: "), ";")?;
        let (_, value) = declared.split_once(" = ")?;
        Some(value.replace('_', ""))
    };
    let own = [
        ("LARGEST_HOURS", LARGEST_HOURS.to_string()),
        ("LARGEST_READING", LARGEST_READING.to_string()),
        ("GAP", GAP.to_string()),
        ("MOST_COLUMNS", MOST_COLUMNS.to_string()),
    ];
    for (name, value) in &own {
        assert_eq!(of_store(name).as_ref(), Some(value), "{name}");
    }
    let of_tables = [
        ("MOST_COEFFICIENTS", MOST_COEFFICIENTS.to_string()),
        ("MOST_CODES", MOST_CODES.to_string()),
        ("MOST_RECORD_BYTES", MOST_RECORD_BYTES.to_string()),
    ];

    let header = file("user/include/sagivelume.h");
    let defined = all_between(&header, "#define SAGIVELUME_", "\n").into_iter().filter_map(|line| line.split_once(' '));
    let defined: Vec<_> = defined.filter(|(name, _)| !name.starts_with("VERSION") && !name.contains('(')).collect();
    let expected: Vec<_> = own.iter().chain(&of_tables).map(|(name, value)| (*name, value.as_str())).collect();
    assert_eq!(defined, expected);
}

/// A table of that many coefficients and codes, and a record of that many bytes, is the largest that there is.
#[test]
fn the_largest_buffers_are_just_long_enough() {
    let readings = [7; LARGEST_HOURS];
    let (mut coefficients, mut codes) = ([0; MOST_COEFFICIENTS], [0; MOST_CODES]);
    let mut record = [0; MOST_RECORD_BYTES];
    let short = Err(Refusal { number: Refusal::SHORT_BUFFER, place: 0 });
    assert_eq!(sagivelume::make(LARGEST_HOURS, &readings, &mut coefficients[1..], &mut codes), short);
    assert_eq!(sagivelume::make(LARGEST_HOURS, &readings, &mut coefficients, &mut codes[1..]), short);
    assert_eq!(sagivelume::make(LARGEST_HOURS, &readings, &mut coefficients, &mut codes), Ok(()));
    let written = sagivelume::write_record(LARGEST_HOURS, &coefficients, &codes, &mut record);
    assert_eq!(written, Ok(MOST_RECORD_BYTES));
}

#[test]
fn the_version_is_that_of_the_header() {
    let header = file("user/include/sagivelume.h");
    let version = env!("CARGO_PKG_VERSION");
    assert!(header.contains(&format!("\n#define SAGIVELUME_VERSION \"{version}\"\n")));
    assert!(file("user/lib/pkgconfig/sagivelume.pc").contains(&format!("\nVersion: {version}\n")));

    let number = version.split('.').fold(0, |number, part| number * 100 + part.parse::<u32>().expect("a number"));
    assert!(header.contains(&format!("\n#define SAGIVELUME_VERSION_NUMBER {number}\n")));
}

#[test]
fn every_call_and_constant_has_an_example() {
    let modules = modules();
    let mut shown = 0;
    for (at, kind) in modules.match_indices("pub fn ").chain(modules.match_indices("pub const ")) {
        let name = modules[at + kind.len()..].split(['(', ':']).next().expect("a name");
        // The constants of the refusals have one example together.
        if name == "$word" {
            continue;
        }
        let comment = modules[..at].rsplit("\n\n").next().expect("a last part");
        assert!(comment.contains("/// ```"), "{name}");
        shown += 1;
    }
    assert!(shown > 12, "{shown}");
}
