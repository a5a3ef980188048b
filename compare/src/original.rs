//! Calls into the original.

use crate::case::{
    ALL_MODIFIERS, Answer, CHAR, CSI_U, Case, FUNCTION, KITTY, NUMPAD9, WIN32, XTERM,
};
use std::hash::{Hash, Hasher};
use std::mem::discriminant;
use std::panic::{self, UnwindSafe};
use termwiz::escape::csi::KittyKeyboardFlags;
use termwiz::input::KeyCode::{self, *};
use termwiz::input::{KeyCodeEncodeModes, KeyboardEncoding, Modifiers};

/// The keys by their places; those with a number stand here with 0.
pub const KEYS: [KeyCode; 90] = [
    Char('\0'),
    Hyper,
    Super,
    Meta,
    Cancel,
    Backspace,
    Tab,
    Clear,
    Enter,
    Shift,
    Escape,
    LeftShift,
    RightShift,
    Control,
    LeftControl,
    RightControl,
    Alt,
    LeftAlt,
    RightAlt,
    Menu,
    LeftMenu,
    RightMenu,
    Pause,
    CapsLock,
    PageUp,
    PageDown,
    End,
    Home,
    LeftArrow,
    RightArrow,
    UpArrow,
    DownArrow,
    Select,
    Print,
    Execute,
    PrintScreen,
    Insert,
    Delete,
    Help,
    LeftWindows,
    RightWindows,
    Applications,
    Sleep,
    Numpad0,
    Numpad1,
    Numpad2,
    Numpad3,
    Numpad4,
    Numpad5,
    Numpad6,
    Numpad7,
    Numpad8,
    Numpad9,
    Multiply,
    Add,
    Separator,
    Subtract,
    Decimal,
    Divide,
    Function(0),
    NumLock,
    ScrollLock,
    Copy,
    Cut,
    Paste,
    BrowserBack,
    BrowserForward,
    BrowserRefresh,
    BrowserStop,
    BrowserSearch,
    BrowserFavorites,
    BrowserHome,
    VolumeMute,
    VolumeDown,
    VolumeUp,
    MediaNextTrack,
    MediaPrevTrack,
    MediaStop,
    MediaPlayPause,
    ApplicationLeftArrow,
    ApplicationRightArrow,
    ApplicationUpArrow,
    ApplicationDownArrow,
    KeyPadHome,
    KeyPadEnd,
    KeyPadPageUp,
    KeyPadPageDown,
    KeyPadBegin,
    InternalPasteStart,
    InternalPasteEnd,
];

const _: () = assert!(matches!(KEYS[CHAR as usize], Char(_)));
const _: () = assert!(matches!(KEYS[NUMPAD9 as usize], Numpad9));
const _: () = assert!(matches!(KEYS[FUNCTION as usize], Function(_)));

/// What the original answers to a case.
pub fn encode(case: &Case) -> Answer {
    let (Some(key), Some(modifiers), Some(modes)) = (key(case), modifiers(case), modes(case))
    else {
        return Answer::CannotBeAsked;
    };
    let ask = || match key.encode(modifiers, modes, case.is_down) {
        Ok(text) => Answer::Bytes(text.into_bytes()),
        Err(_) => Answer::Error,
    };
    if key == Function(0) {
        catch_panic(ask).unwrap_or(Answer::Panic)
    } else {
        ask()
    }
}

/// Asks where a panic is to be expected, and keeps it from being reported on stderr; `None` where
/// there was one.
pub fn catch_panic<T>(ask: impl FnOnce() -> T + UnwindSafe) -> Option<T> {
    let hook = panic::take_hook();
    panic::set_hook(Box::new(|_| {}));
    let answer = panic::catch_unwind(ask);
    panic::set_hook(hook);
    answer.ok()
}

fn key(case: &Case) -> Option<KeyCode> {
    match KEYS.get(case.place as usize)? {
        Char(_) => char::from_u32(case.number).map(Char),
        Function(_) => u8::try_from(case.number).ok().map(Function),
        key => Some(*key),
    }
}

fn modifiers(case: &Case) -> Option<Modifiers> {
    if case.modifiers > ALL_MODIFIERS {
        return None;
    }
    Some(Modifiers::from_bits_truncate(case.modifiers as u16))
}

fn modes(case: &Case) -> Option<KeyCodeEncodeModes> {
    let encoding = match case.encoding {
        XTERM => KeyboardEncoding::Xterm,
        CSI_U => KeyboardEncoding::CsiU,
        WIN32 => KeyboardEncoding::Win32,
        KITTY => KeyboardEncoding::Kitty(KittyKeyboardFlags::from_bits_truncate(case.kitty_flags)),
        _ => return None,
    };
    Some(KeyCodeEncodeModes {
        encoding,
        application_cursor_keys: case.application_cursor_keys,
        newline_mode: case.newline_mode,
        modify_other_keys: case.modify_other_keys,
    })
}

/// The place of a key, whatever its number.
pub fn place(key: KeyCode) -> u32 {
    let same = |listed: &KeyCode| discriminant(listed) == discriminant(&key);
    KEYS.iter().position(same).expect("all keys are listed") as u32
}

/// The name of the variant at a place.
pub fn name(place: u32) -> String {
    match KEYS.get(place as usize) {
        Some(key) => format!("{key:?}").replace("('\\0')", "").replace("(0)", ""),
        None => "no key".to_string(),
    }
}

/// Refuses where a key of `KEYS` does not stand at its place in the original's enum.
pub fn check_places() -> Result<(), String> {
    for (place, key) in KEYS.iter().enumerate() {
        let mut seen = Discriminant(None);
        key.hash(&mut seen);
        if seen.0 != Some(place as isize) {
            return Err(format!("{key:?} is listed at {place}, out of its place"));
        }
    }
    Ok(())
}

/// Takes a variant's place from the `Hash` that the original derives: an enum's discriminant is
/// hashed first.
struct Discriminant(Option<isize>);

impl Hasher for Discriminant {
    fn write_isize(&mut self, discriminant: isize) {
        self.0.get_or_insert(discriminant);
    }

    fn write(&mut self, _: &[u8]) {}

    fn finish(&self) -> u64 {
        0
    }
}
