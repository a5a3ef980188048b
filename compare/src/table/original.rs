//! What the original's table means, by its decoder.

use super::rules::Press;
use crate::keymap::table;
use crate::original::{KEYS, name, place};
use std::collections::BTreeMap;
use termwiz::input::{InputEvent, InputParser, KeyCode, KeyEvent};

/// This key leads into a paste and gives no event.
pub const PASTE_START: &[u8] = b"\x1b[200~";

/// The original's keys with their presses; the one that gives no event is told by name.
pub fn presses() -> Result<BTreeMap<Vec<u8>, Press>, String> {
    let shown = format!("{:?}", InputParser::new());
    if shown.matches("InternalPasteStart").count() != 1 {
        return Err("the original's table has not one start of a paste".to_string());
    }
    table::keys()
        .into_iter()
        .map(|key| press(&key).map(|press| (key, press)))
        .collect()
}

fn press(key: &[u8]) -> Result<Press, String> {
    if key == PASTE_START {
        return Ok(told(KeyEvent {
            key: KeyCode::InternalPasteStart,
            modifiers: Default::default(),
        }));
    }
    let mut events = Vec::new();
    InputParser::new().parse(key, |event| events.push(event), false);
    match events.as_slice() {
        [InputEvent::Key(event)] => Ok(told(event.clone())),
        _ => Err(format!("the original reads {key:02X?} as {events:?}")),
    }
}

fn told(event: KeyEvent) -> Press {
    let number = match event.key {
        KeyCode::Char(c) => c as u32,
        KeyCode::Function(n) => n as u32,
        _ => 0,
    };
    Press {
        name: static_name(place(event.key)),
        modifiers: event.modifiers.bits(),
        number,
    }
}

/// The name of the key at a place; the names live as long as the program.
pub fn static_name(place: u32) -> &'static str {
    use std::sync::OnceLock;
    static NAMES: OnceLock<Vec<String>> = OnceLock::new();
    let names = NAMES.get_or_init(|| (0..KEYS.len() as u32).map(name).collect());
    names.get(place as usize).map_or("no key", String::as_str)
}
