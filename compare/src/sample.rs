//! Writes a list of cases and, beside it, the original's answers, for the port to be run on.

use crate::case::{Answer, CHAR, CSI_U, Case, FUNCTION, KITTY, WIN32, XTERM};
use crate::classes::{CLASSES, Expected};
use crate::generator::Generator;
use crate::original;
use std::collections::HashSet;
use std::fs;
use termwiz::input::KeyCode::{self, *};

/// So many cases are written; those that no list below names are drawn by a generator.
const CASES: usize = 500;

const SHIFT: u32 = 1;
const ALT: u32 = 2;
const CTRL: u32 = 4;
const SUPER: u32 = 8;

const ENCODINGS: [(u32, &str); 4] = [
    (XTERM, "xterm"),
    (CSI_U, "csiu"),
    (WIN32, "win32"),
    (KITTY, "kitty"),
];

const MODIFY_OTHER_KEYS: [Option<i64>; 5] = [None, Some(1), Some(2), Some(3), Some(-1)];

/// Characters of every kind: controls, the space, letters, digits, punctuation, and others of each
/// length in UTF-8.
const CHARACTERS: [char; 36] = [
    '\0',
    '\x01',
    '\x08',
    '\t',
    '\n',
    '\r',
    '\x1b',
    '\x1f',
    ' ',
    'a',
    'c',
    'd',
    'i',
    'm',
    'z',
    'A',
    'I',
    'Z',
    '0',
    '2',
    '8',
    '9',
    '[',
    '{',
    '@',
    '/',
    ';',
    '~',
    '\x7f',
    '\u{80}',
    '\u{e9}',
    '\u{7ff}',
    '\u{800}',
    '\u{ffff}',
    '\u{10000}',
    '\u{10ffff}',
];

/// Keys that are written with each set of SHIFT, ALT and CTRL.
const MODIFIED: [KeyCode; 15] = [
    LeftArrow,
    RightArrow,
    UpArrow,
    DownArrow,
    Function(1),
    Function(4),
    Function(5),
    Function(12),
    Function(20),
    Function(24),
    Tab,
    Enter,
    Escape,
    Backspace,
    Delete,
];

/// Keys and modifiers that CSI u or modify_other_keys can send in another form.
const OTHER_FORMS: [(KeyCode, u32); 16] = [
    (Char('i'), CTRL),
    (Char('['), CTRL | SHIFT),
    (Char('@'), CTRL | ALT),
    (Char('a'), CTRL),
    (Char('c'), SUPER),
    (Char('d'), CTRL | SHIFT),
    (Char('I'), CTRL),
    (Char(' '), SHIFT),
    (Char(';'), CTRL),
    (Char('\x1b'), ALT),
    (Char('\u{e9}'), CTRL | SHIFT),
    (Tab, SHIFT),
    (Enter, CTRL),
    (Escape, CTRL | ALT),
    (Backspace, SHIFT),
    (Backspace, CTRL | SHIFT),
];

/// Keys of which some heed application_cursor_keys or newline_mode.
const MODE_KEYS: [KeyCode; 8] = [
    UpArrow,
    Home,
    End,
    KeyPadHome,
    ApplicationUpArrow,
    Numpad8,
    Enter,
    Escape,
];

/// Writes the list and the answers to the files of these paths.
pub fn write(cases: &str, answers: &str) -> Result<(), String> {
    original::check_places()?;
    let sample = Sample::collect();
    for (path, text) in [(cases, &sample.cases), (answers, &sample.answers)] {
        fs::write(path, text).map_err(|error| format!("{path} cannot be written: {error}"))?;
    }
    eprintln!("compare: {} cases are written", sample.seen.len());
    for (class, count) in CLASSES.iter().zip(sample.left_out) {
        if count > 0 {
            eprintln!("compare: {count} cases of {} are left out", class.name);
        }
    }
    Ok(())
}

#[derive(Default)]
struct Sample {
    cases: String,
    answers: String,
    seen: HashSet<String>,
    /// How many cases of each class came up.
    left_out: [usize; CLASSES.len()],
}

impl Sample {
    fn collect() -> Self {
        let mut sample = Sample::default();
        sample.add_plain();
        sample.add_modified();
        sample.add_characters();
        sample.add_other_forms();
        sample.add_modes();
        sample.add_further_modifiers();
        sample.add_key_ups();
        let mut generator = Generator::new();
        while sample.seen.len() < CASES {
            sample.add(generator.case());
        }
        sample
    }

    /// Adds a case, unless it is there or the port differs from the original in it.
    fn add(&mut self, case: Case) {
        let said = original::encode(&case);
        let expected = Expected::new(&case, usize::MAX, &said);
        for class in &expected.classes {
            self.left_out[*class] += 1;
        }
        if let Answer::Bytes(bytes) = &said
            && expected.classes.is_empty()
            && self.seen.insert(case_line(&case))
        {
            self.cases += &case_line(&case);
            self.answers += &answer_line(bytes);
        }
    }

    fn add_plain(&mut self) {
        for key in original::KEYS {
            match key {
                Char(_) => self.add(plain(Char('a'))),
                Function(_) => (1..=24).for_each(|n| self.add(plain(Function(n)))),
                _ => self.add(plain(key)),
            }
        }
    }

    fn add_modified(&mut self) {
        for key in MODIFIED {
            for modifiers in 0..8 {
                self.add(with_modifiers(key, modifiers));
            }
        }
    }

    /// Each character alone, and in two encodings with sets of modifiers that change from one
    /// character to the next.
    fn add_characters(&mut self) {
        for (place, character) in (0..).zip(CHARACTERS) {
            self.add(plain(Char(character)));
            self.add(with_modifiers(Char(character), 1 + place % 7));
            self.add(Case {
                encoding: CSI_U,
                ..with_modifiers(Char(character), 1 + (place + 3) % 7)
            });
        }
    }

    fn add_other_forms(&mut self) {
        let rare = [3, -1].into_iter().cycle();
        for ((key, modifiers), rare) in OTHER_FORMS.into_iter().zip(rare) {
            let forms = [
                (XTERM, Some(1)),
                (XTERM, Some(2)),
                (XTERM, Some(rare)),
                (CSI_U, None),
                (CSI_U, Some(2)),
            ];
            for (encoding, modify_other_keys) in forms {
                self.add(Case {
                    encoding,
                    modify_other_keys,
                    ..with_modifiers(key, modifiers)
                });
            }
        }
        for (encoding, _) in ENCODINGS {
            self.add(Case {
                encoding,
                ..with_modifiers(Char('m'), CTRL | SHIFT)
            });
        }
    }

    fn add_modes(&mut self) {
        for key in MODE_KEYS {
            for (modifiers, cursor, newline) in
                [(0, true, false), (0, false, true), (ALT, true, true)]
            {
                self.add(Case {
                    application_cursor_keys: cursor,
                    newline_mode: newline,
                    ..with_modifiers(key, modifiers)
                });
            }
        }
    }

    /// SUPER, and the modifiers that say which side's key is held.
    fn add_further_modifiers(&mut self) {
        for key in [Char('a'), UpArrow, Function(1), Function(5), Tab, Enter] {
            for modifiers in [SUPER, 16 | 64 | 256, 1024 | CTRL, 2047] {
                self.add(with_modifiers(key, modifiers));
            }
        }
    }

    fn add_key_ups(&mut self) {
        let keys = [
            Char('a'),
            Enter,
            UpArrow,
            Function(1),
            Function(0),
            Function(25),
            Numpad9,
        ];
        for key in keys {
            self.add(Case {
                is_down: false,
                ..plain(key)
            });
        }
    }
}

fn plain(key: KeyCode) -> Case {
    let number = match key {
        Char(c) => c.into(),
        Function(n) => n.into(),
        _ => 0,
    };
    Case::plain(original::place(key), number)
}

fn with_modifiers(key: KeyCode, modifiers: u32) -> Case {
    Case {
        modifiers,
        ..plain(key)
    }
}

/// NAME, NUMBER, MODIFIERS, ENCODING, CURSOR, NEWLINE, OTHER and DOWN, with tabs between.
fn case_line(case: &Case) -> String {
    let number = match case.place {
        CHAR | FUNCTION => case.number.to_string(),
        _ => "-".to_string(),
    };
    let encoding = ENCODINGS
        .iter()
        .find(|(encoding, _)| *encoding == case.encoding);
    let fields = [
        original::name(case.place),
        number,
        case.modifiers.to_string(),
        encoding.map_or("", |(_, name)| name).to_string(),
        u8::from(case.application_cursor_keys).to_string(),
        u8::from(case.newline_mode).to_string(),
        case.modify_other_keys
            .map_or("-".to_string(), |value| value.to_string()),
        u8::from(case.is_down).to_string(),
    ];
    fields.join("\t") + "\n"
}

fn answer_line(bytes: &[u8]) -> String {
    let hex: String = bytes.iter().map(|byte| format!("{byte:02X}")).collect();
    format!("bytes\t{hex}\n")
}

impl Generator {
    fn key(&mut self) -> KeyCode {
        match self.below(4) {
            0 => self.one_of(&original::KEYS),
            1 => self.one_of(&MODIFIED),
            2 => self.one_of(&CHARACTERS.map(Char)),
            _ => Char(char::from(32 + self.below(95) as u8)),
        }
    }

    fn case(&mut self) -> Case {
        Case {
            modifiers: self.below(2048),
            encoding: self.one_of(&ENCODINGS).0,
            application_cursor_keys: self.below(2) == 1,
            newline_mode: self.below(2) == 1,
            modify_other_keys: self.one_of(&MODIFY_OTHER_KEYS),
            is_down: self.below(16) > 0,
            ..plain(self.key())
        }
    }
}
