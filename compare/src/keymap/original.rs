//! The original's map.

use super::record::Answer;
use crate::original::catch_panic;
use std::panic::AssertUnwindSafe;
use termwiz::keymap::{Found, KeyMap};

#[derive(Clone, Default)]
pub struct Original(KeyMap<u32>);

impl Original {
    /// Stores a value, and looks it up.
    pub fn insert(&mut self, key: &[u8], value: u32) -> Answer {
        self.0.insert(key, value);
        let found = self.lookup(key, false);
        if found == Answer::Exact(key.len(), value) {
            Answer::Inserted
        } else {
            found
        }
    }

    pub fn lookup(&self, input: &[u8], open: bool) -> Answer {
        let ask = AssertUnwindSafe(|| self.ask(input, open));
        if input.is_empty() {
            catch_panic(ask).unwrap_or(Answer::Panic)
        } else {
            ask()
        }
    }

    /// A lookup that does not panic.
    pub fn ask(&self, input: &[u8], open: bool) -> Answer {
        match self.0.lookup(input, open) {
            Found::None => Answer::None,
            Found::Exact(len, value) => Answer::Exact(len, value),
            Found::Ambiguous(len, value) => Answer::Ambiguous(len, value),
            Found::NeedData => Answer::NeedData,
        }
    }
}
