//! Helpers that read the tables of the tests. Not every test uses all of them.
#![allow(dead_code)]

use std::fs;
use std::path::Path;

/// Parses bytes in hexadecimal, or `-` for none.
pub fn hex(text: &str) -> Vec<u8> {
    let text = text.trim_start_matches('-');
    (0..text.len() / 2)
        .map(|at| u8::from_str_radix(&text[2 * at..2 * at + 2], 16).unwrap())
        .collect()
}

/// Reads a file that is beside the crate, or among its tests in a package of it.
pub fn shared(name: &str) -> String {
    let folder = Path::new(env!("CARGO_MANIFEST_DIR"));
    let packed = fs::read_to_string(folder.join("tests").join(name));
    packed
        .or_else(|_| fs::read_to_string(folder.join("..").join(name)))
        .unwrap_or_else(|error| panic!("{name}: {error}"))
}

/// Returns the rows of a table, each split at ` => `.
pub fn rows(table: &str) -> impl Iterator<Item = (&str, &str)> {
    table.lines().map(|row| row.split_once(" => ").unwrap())
}
