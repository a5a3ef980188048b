//! Compares the bytes that the port and the original send for a key press.

use crate::case::{ALL_MODIFIERS, Answer, CHAR, CSI_U, Case, FUNCTION, KITTY, WIN32, XTERM};
use crate::classes::{CLASSES, Expected};
use crate::port::{self, Reply};
use crate::progress::Progress;
use crate::tally::Tally;
use crate::{documented, original};
use termwiz::input::KeyCode;

/// A key's place and its number.
type Key = (u32, u32);

/// Encodings, with the flags of Kitty: none, and all.
const ENCODINGS: [(u32, u16); 5] = [(XTERM, 0), (CSI_U, 0), (WIN32, 0), (KITTY, 0), (KITTY, 31)];

const MODIFY_OTHER_KEYS: [Option<i64>; 8] = [
    None,
    Some(0),
    Some(1),
    Some(2),
    Some(3),
    Some(-1),
    Some(i64::MAX),
    Some(i64::MIN),
];

/// Characters past U+02FF: the ends of the planes and of the UTF-8 lengths, and scripts between.
const CHARACTERS: [u32; 64] = [
    0x300, 0x370, 0x3b1, 0x410, 0x44f, 0x5d0, 0x627, 0x6ff, 0x700, 0x7fe, 0x7ff, 0x800, 0x801,
    0x905, 0xe01, 0xfff, 0x1000, 0x1100, 0x1e9e, 0x1fff, 0x2000, 0x200b, 0x200d, 0x2028, 0x20ac,
    0x2190, 0x2191, 0x2500, 0x27ff, 0x3000, 0x3042, 0x4e00, 0x9fff, 0xac00, 0xd7a3, 0xd7fe, 0xd7ff,
    0xe000, 0xe001, 0xf8ff, 0xfb01, 0xfe0f, 0xfeff, 0xff21, 0xfffc, 0xfffd, 0xfffe, 0xffff,
    0x10000, 0x10001, 0x10400, 0x1d400, 0x1f1e6, 0x1f600, 0x1f9ff, 0x1ffff, 0x20000, 0x2ffff,
    0x3ffff, 0xe0001, 0xfffff, 0x100000, 0x10fffe, 0x10ffff,
];

/// Sets with positional modifiers; each of those alone is added to them.
const POSITIONAL_SETS: [u32; 12] = [
    0x7f0, 0x7f1, 0x7f7, 0x7f8, 0x7ff, 0x011, 0x022, 0x044, 0x085, 0x303, 0x40c, 0x2aa,
];

/// Sets over 2047, some of which are small sets where only the low bits are looked at.
const MODIFIERS_OVER: [u32; 9] = [
    0x800,
    0x801,
    0xfff,
    0x1000,
    0xffff,
    0x1_0000,
    0x1_0004,
    0x8000_0000,
    u32::MAX,
];

/// Numbers from 0x110000 on, some of which are characters where only the low bits are looked at.
const OVER_UNICODE: [u32; 9] = [
    0x11_0000,
    0x11_0001,
    0x11_0061,
    0x1f_ffff,
    0x20_0061,
    0x7fff_ffff,
    0x8000_0000,
    0x8000_0061,
    u32::MAX,
];

/// Function numbers past a byte, some of which are F1 or F24 where only the low bits are looked at.
const FUNCTIONS_OVER: [u32; 6] = [256, 257, 280, 0x1_0001, 0x8000_0001, u32::MAX];

/// Places and encodings that do not exist.
const PLACES_OVER: [u32; 6] = [90, 91, 255, 256, 0x1_0000, u32::MAX];
const ENCODINGS_OVER: [u32; 5] = [4, 5, 256, 0x1_0001, u32::MAX];

/// Answers whether there was no unnamed difference.
pub fn compare() -> Result<bool, String> {
    documented::check(CLASSES.iter().map(|class| class.name))?;
    original::check_places()?;
    let mut tally = Tally::new(CLASSES.iter().map(|class| class.name));
    let (keys, modes) = (keys(), modes());
    let mut progress = Progress::new(keys.len() as u64 + 1);
    let sets = modifier_sets();
    for key in keys {
        compare_key(key, &sets, &modes, &mut tally);
        progress.step(tally.cases());
    }
    compare_refusals(&mut tally);
    compare_absent_places(&mut tally);
    progress.step(tally.cases());
    Ok(tally.conclude())
}

/// Every key that the original has, and characters of every kind.
fn keys() -> Vec<Key> {
    let places = (0..original::KEYS.len() as u32)
        .filter(|place| ![CHAR, FUNCTION].contains(place))
        .map(|place| (place, 0));
    let functions = (0..=255).map(|number| (FUNCTION, number));
    let characters = (0..0x300).chain(CHARACTERS).map(|number| (CHAR, number));
    places.chain(functions).chain(characters).collect()
}

fn modifier_sets() -> Vec<u32> {
    let positional = (4..11).map(|bit| 1 << bit);
    (0..16).chain(positional).chain(POSITIONAL_SETS).collect()
}

/// Cases in every mode, whose keys are to be filled in.
fn modes() -> Vec<Case> {
    let mut modes = Vec::new();
    for (encoding, kitty_flags) in ENCODINGS {
        for modify_other_keys in MODIFY_OTHER_KEYS {
            for bits in 0..8 {
                modes.push(Case {
                    encoding,
                    kitty_flags,
                    application_cursor_keys: bits & 1 != 0,
                    newline_mode: bits & 2 != 0,
                    modify_other_keys,
                    is_down: bits & 4 != 0,
                    ..Case::plain(0, 0)
                });
            }
        }
    }
    modes
}

/// A few keys that have nothing to refuse.
fn sound_keys() -> Vec<Key> {
    let others = [KeyCode::Enter, KeyCode::Hyper, KeyCode::Numpad9];
    let mut keys = vec![(CHAR, u32::from('a')), (FUNCTION, 1), (FUNCTION, 24)];
    keys.extend(others.map(|key| (original::place(key), 0)));
    keys
}

/// Cases that the port refuses for more than one cause, and key ups of them.
fn compare_refusals(tally: &mut Tally) {
    let mut keys = sound_keys();
    keys.extend((0xd800..0xe000).chain(OVER_UNICODE).map(|c| (CHAR, c)));
    keys.extend([0, 25, 255].map(|number| (FUNCTION, number)));
    keys.extend(FUNCTIONS_OVER.map(|number| (FUNCTION, number)));
    let modes: Vec<Case> = modes().into_iter().step_by(9).collect();
    let sets: Vec<u32> = MODIFIERS_OVER
        .into_iter()
        .chain([0, 5, ALL_MODIFIERS])
        .collect();
    for key in keys {
        compare_key(key, &sets, &modes, tally);
    }
}

/// Places and encodings that do not exist, with nothing else to refuse.
fn compare_absent_places(tally: &mut Tally) {
    for place in PLACES_OVER {
        for encoding in [XTERM, CSI_U, WIN32, KITTY]
            .into_iter()
            .chain(ENCODINGS_OVER)
        {
            let case = Case {
                encoding,
                ..Case::plain(place, 0)
            };
            compare_case(&case, tally);
        }
    }
    for encoding in ENCODINGS_OVER {
        for (place, number) in sound_keys() {
            let case = Case {
                encoding,
                ..Case::plain(place, number)
            };
            compare_case(&case, tally);
        }
    }
}

/// Compares a key under each set of modifiers in each mode.
fn compare_key((place, number): Key, sets: &[u32], modes: &[Case], tally: &mut Tally) {
    for &modifiers in sets {
        for mode in modes {
            let case = Case {
                place,
                number,
                modifiers,
                ..*mode
            };
            compare_case(&case, tally);
        }
    }
}

/// Compares one case, with outputs of several lengths.
fn compare_case(case: &Case, tally: &mut Tally) {
    let original = original::encode(case);
    let alone = interface_answer(case, &original);
    let said = alone.as_ref().unwrap_or(&original);
    let with_room = Expected::new(case, usize::MAX, said);
    for room in rooms(with_room.answer(said)) {
        let expected = Expected::new(case, room, said);
        let reply = port::encode(case, room);
        if !reply.is(expected.answer(said)) {
            tally.unnamed(|| show(case, room, &original, expected.answer(said), &reply));
        } else if !expected.classes.is_empty() {
            tally.named(&expected.classes);
        } else if alone.is_some() {
            tally.port_alone();
        } else {
            tally.equal();
        }
    }
}

/// What the port's interface says by itself of a case that the original cannot be asked: a key that
/// goes up sends nothing, whatever else the case says, and an absent place or encoding is refused.
fn interface_answer(case: &Case, original: &Answer) -> Option<Answer> {
    if *original != Answer::CannotBeAsked {
        None
    } else if !case.is_down {
        Some(Answer::Bytes(Vec::new()))
    } else if case.place as usize >= original::KEYS.len() || case.encoding > KITTY {
        Some(Answer::Refused(100))
    } else {
        None
    }
}

/// Lengths of the output around the need.
fn rooms(answer: &Answer) -> Vec<usize> {
    let Answer::Bytes(bytes) = answer else {
        return vec![0, 1, 8, 24];
    };
    let need = bytes.len();
    let mut rooms = vec![0, need.saturating_sub(1), need, need + 1, need + 7];
    rooms.dedup();
    rooms
}

/// Prints an unnamed difference, and the output with some bytes behind its room.
fn show(case: &Case, room: usize, original: &Answer, expected: &Answer, reply: &Reply) {
    let name = original::name(case.place);
    println!("unnamed difference: {name}, {case:?}, room {room}");
    println!("  original {original}");
    println!("  expected {expected}");
    let output = &reply.output[..room + 4];
    println!("  port     {}, output {output:02x?}", reply.answered);
}
