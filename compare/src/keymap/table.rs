//! The keys of the original's built-in table.

use termwiz::input::InputParser;

/// The keys in ascending order. The original shows its table only by `Debug`: a node is its label,
/// its children in brackets, and its value.
pub fn keys() -> Vec<Vec<u8>> {
    let shown = format!("{:?}", InputParser::new());
    let mut keys = Vec::new();
    let mut path: Vec<u8> = Vec::new();
    let mut rest = shown.as_str();
    while let Some((event, behind)) = next_event(rest) {
        rest = behind;
        match event {
            Event::Starts(label) => path.push(label),
            Event::Ends { has_value } => {
                if has_value {
                    // The root's label is no part of a key.
                    keys.push(path[1..].to_vec());
                }
                path.pop();
            }
        }
    }
    keys.sort();
    keys
}

enum Event {
    Starts(u8),
    Ends { has_value: bool },
}

/// The next start of a node or end of its children, and the text behind it.
fn next_event(text: &str) -> Option<(Event, &str)> {
    const LABEL: &str = "Node { label: ";
    const VALUE: &str = "], value: ";
    let (label, value) = (text.find(LABEL), text.find(VALUE)?);
    if let Some(label) = label
        && label < value
    {
        let number = &text[label + LABEL.len()..];
        let end = number.find(',')?;
        return Some((Event::Starts(number[..end].parse().ok()?), &number[end..]));
    }
    let behind = &text[value + VALUE.len()..];
    let has_value = behind.starts_with("Some");
    Some((Event::Ends { has_value }, behind))
}
