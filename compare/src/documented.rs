//! The names of differences that the repository's documents give.

use std::fs;

const DIFFERENCES: &str = concat!(env!("CARGO_MANIFEST_DIR"), "/../docs/DIFFERENCES.md");

/// Refuses where no heading of docs/DIFFERENCES.md has one of the names in backticks.
pub fn check<'a>(names: impl IntoIterator<Item = &'a str>) -> Result<(), String> {
    let text = fs::read_to_string(DIFFERENCES)
        .map_err(|error| format!("docs/DIFFERENCES.md cannot be read: {error}"))?;
    let missing: Vec<String> = names
        .into_iter()
        .map(|name| format!("`{name}`"))
        .filter(|quoted| !has_heading(&text, quoted))
        .collect();
    if missing.is_empty() {
        return Ok(());
    }
    let missing = missing.join(", ");
    Err(format!("docs/DIFFERENCES.md has no heading with {missing}"))
}

fn has_heading(text: &str, quoted: &str) -> bool {
    text.lines()
        .any(|line| line.starts_with('#') && line.contains(quoted))
}
