//! Writes what the program `keytable` is to print: the rules' order, and the original's presses.

use super::rules::{Entry, Press};
use super::{filled, original, rules};
use std::fmt::Write;
use std::fs;

pub fn write(file: &str) -> Result<(), String> {
    let entries = rules::entries();
    let presses = original::presses()?;
    let mut text = String::new();
    let mut replaced = String::new();
    for entry in &entries {
        let Entry {
            rule, place, key, ..
        } = entry;
        let hex: String = key.iter().map(|byte| format!("{byte:02X}")).collect();
        let stored = &presses[key];
        if *stored != entry.press {
            // A later rule replaces it.
            writeln!(replaced, "replaced\t{rule}\t{place}\t{hex}").unwrap();
        }
        writeln!(text, "{rule}\t{place}\t{hex}\t{}", fields(&entry.press)).unwrap();
    }
    let whole = filled::fill(&entries, u32::MAX);
    let longest = entries
        .iter()
        .map(|entry| entry.key.len())
        .max()
        .unwrap_or(0);
    text.push_str(&replaced);
    writeln!(text, "inserts\t{}", entries.len()).unwrap();
    writeln!(text, "keys\t{}", presses.len()).unwrap();
    writeln!(text, "longest\t{longest}").unwrap();
    writeln!(text, "nodes\t{}", whole.used).unwrap();
    fs::write(file, text).map_err(|error| format!("{file}: {error}"))
}

/// The key's name, its modifiers by letters, and its number: hexadecimal for a character.
fn fields(press: &Press) -> String {
    let letters: String = [(1, 'S'), (2, 'A'), (4, 'C'), (8, 'P')]
        .into_iter()
        .filter(|(flag, _)| press.modifiers & flag != 0)
        .map(|(_, letter)| letter)
        .collect();
    let modifiers = if letters.is_empty() {
        "-".to_string()
    } else {
        letters
    };
    let number = match press.name {
        "Char" => format!("{:X}", press.number),
        "Function" => press.number.to_string(),
        _ => "-".to_string(),
    };
    format!("{}\t{modifiers}\t{number}", press.name)
}
