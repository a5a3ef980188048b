//! One key press with the modes that it is encoded in, and an answer to it.

use std::fmt;

/// The places in `KeyCode` of the variants that the comparison speaks of.
pub const CHAR: u32 = 0;
pub const NUMPAD9: u32 = 52;
pub const FUNCTION: u32 = 59;

pub const XTERM: u32 = 0;
pub const CSI_U: u32 = 1;
pub const WIN32: u32 = 2;
pub const KITTY: u32 = 3;

/// The set of all modifiers.
pub const ALL_MODIFIERS: u32 = 2047;

/// What the port is asked. All is numbers, so that a case can also be one that the original's types
/// do not allow.
#[derive(Debug, Clone, Copy)]
pub struct Case {
    pub place: u32,
    pub number: u32,
    pub modifiers: u32,
    pub encoding: u32,
    /// Said to the original alone: the port's Kitty encoding has no flags.
    pub kitty_flags: u16,
    pub application_cursor_keys: bool,
    pub newline_mode: bool,
    pub modify_other_keys: Option<i64>,
    pub is_down: bool,
}

impl Case {
    /// A key that goes down alone, in the xterm encoding, with every mode off.
    pub fn plain(place: u32, number: u32) -> Self {
        Case {
            place,
            number,
            modifiers: 0,
            encoding: XTERM,
            kitty_flags: 0,
            application_cursor_keys: false,
            newline_mode: false,
            modify_other_keys: None,
            is_down: true,
        }
    }

    pub fn is_function(&self) -> bool {
        self.place == FUNCTION
    }

    /// Whether it is a `Char` whose number is no Unicode scalar value.
    pub fn is_no_scalar(&self) -> bool {
        self.place == CHAR && char::from_u32(self.number).is_none()
    }
}

#[derive(Debug, Clone, PartialEq, Eq)]
pub enum Answer {
    Bytes(Vec<u8>),
    /// The original returned an `Err`.
    Error,
    /// The original panicked.
    Panic,
    /// The original's types do not allow the case.
    CannotBeAsked,
    /// The port refuses, with this number.
    Refused(u32),
}

impl fmt::Display for Answer {
    fn fmt(&self, f: &mut fmt::Formatter) -> fmt::Result {
        match self {
            Answer::Bytes(bytes) => write!(f, "bytes {bytes:02x?}"),
            Answer::Error => write!(f, "error"),
            Answer::Panic => write!(f, "panic"),
            Answer::CannotBeAsked => write!(f, "cannot be asked"),
            Answer::Refused(number) => write!(f, "refused {number}"),
        }
    }
}
