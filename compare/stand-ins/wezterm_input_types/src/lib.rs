//! Stands in for the crate `wezterm_input_types`: the modifiers, with the bit numbers of the port's
//! interface, the flags of the Kitty protocol, and what CTRL makes of a character.

use bitflags::bitflags;

bitflags! {
    #[derive(Debug, Default, Clone, Copy, PartialEq, Eq)]
    pub struct Modifiers: u16 {
        const NONE = 0;
        const SHIFT = 1;
        const ALT = 2;
        const CTRL = 4;
        const SUPER = 8;
        const LEFT_ALT = 16;
        const RIGHT_ALT = 32;
        const LEFT_CTRL = 64;
        const RIGHT_CTRL = 128;
        const LEFT_SHIFT = 256;
        const RIGHT_SHIFT = 512;
        const ENHANCED_KEY = 1024;
    }
}

bitflags! {
    #[derive(Debug, Default, Clone, Copy, PartialEq, Eq)]
    pub struct KittyKeyboardFlags: u16 {
        const NONE = 0;
        const DISAMBIGUATE_ESCAPE_CODES = 1;
        const REPORT_EVENT_TYPES = 2;
        const REPORT_ALTERNATE_KEYS = 4;
        const REPORT_ALL_KEYS_AS_ESCAPE_CODES = 8;
        const REPORT_ASSOCIATED_TEXT = 16;
    }
}

impl Modifiers {
    /// The modifiers' number in an xterm sequence, less one.
    pub fn encode_xterm(self) -> u8 {
        [(Self::SHIFT, 1), (Self::ALT, 2), (Self::CTRL, 4)]
            .into_iter()
            .filter(|&(modifier, _)| self.contains(modifier))
            .map(|(_, number)| number)
            .sum()
    }

    /// The set without the modifiers that say which side's key is held.
    pub fn remove_positional_mods(self) -> Self {
        self & (Self::SHIFT | Self::ALT | Self::CTRL | Self::SUPER)
    }
}

/// The control character that CTRL makes of a character.
pub fn ctrl_mapping(c: char) -> Option<char> {
    Some(match c {
        'a'..='z' => (c as u8 - b'a' + 1) as char,
        'A'..='Z' => (c as u8 - b'A' + 1) as char,
        '@' | '`' | ' ' | '2' => '\0',
        '[' | '3' | '{' => '\x1b',
        '\\' | '4' | '|' => '\x1c',
        ']' | '5' | '}' => '\x1d',
        '^' | '6' | '~' => '\x1e',
        '_' | '7' | '/' => '\x1f',
        '8' | '?' => '\x7f',
        _ => return None,
    })
}
