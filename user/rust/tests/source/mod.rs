//! The repository's files, and parts of their text.

use std::fs;
use std::path::Path;

/// A file of the repository.
pub fn file(path: &str) -> String {
    let root = Path::new(env!("CARGO_MANIFEST_DIR")).join("../..");
    fs::read_to_string(root.join(path)).unwrap_or_else(|why| panic!("{path}: {why}"))
}

/// The modules of this crate whose calls and structs are the boundary's.
pub fn modules() -> String {
    let names = ["refusal", "sizes", "table", "old_log", "record", "column", "finished"];
    names.map(|name| file(&format!("user/rust/src/{name}.rs"))).concat()
}

/// The part of a text from after `begin` to before `end`, and what follows it.
pub fn between<'a>(text: &'a str, begin: &str, end: &str) -> Option<(&'a str, &'a str)> {
    let (_, rest) = text.split_once(begin)?;
    rest.split_once(end)
}

/// Every part of a text from after `begin` to before `end`.
pub fn all_between<'a>(mut text: &'a str, begin: &str, end: &str) -> Vec<&'a str> {
    let mut parts = vec![];
    while let Some((part, rest)) = between(text, begin, end) {
        parts.push(part);
        text = rest;
    }
    parts
}
