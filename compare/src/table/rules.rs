//! The table by its rules, in the order of filling, written out anew from the documents: XTerm Control
//! Sequences, the fixterms page and rxvt's keys.

/// A key of the table: its rule and its place in it, both from 1, its bytes, and the press.
pub struct Entry {
    pub rule: u32,
    pub place: u32,
    pub key: Vec<u8>,
    pub press: Press,
}

/// A press: the key's name in `KeyCode`, the modifiers (SHIFT 1, ALT 2, CTRL 4), and the number of a
/// character or function key, else 0.
#[derive(Clone, Debug, PartialEq, Eq)]
pub struct Press {
    pub name: &'static str,
    pub modifiers: u16,
    pub number: u32,
}

const SHIFT: u16 = 1;
const ALT: u16 = 2;
const CTRL: u16 = 4;

fn named(name: &'static str, modifiers: u16) -> Press {
    Press {
        name,
        modifiers,
        number: 0,
    }
}

fn character(number: u32, modifiers: u16) -> Press {
    Press {
        name: "Char",
        modifiers,
        number,
    }
}

fn function(number: u32, modifiers: u16) -> Press {
    Press {
        name: "Function",
        modifiers,
        number,
    }
}

/// The modifiers of a parameter: one less than it is a sum of 1, 2, 4 and META's 8, which is ALT.
fn modifiers(parameter: u16) -> u16 {
    let sum = parameter - 1;
    sum % 8 | if sum >= 8 { ALT } else { 0 }
}

/// The sequence without a parameter, then with each from 1 to the last.
fn forms(last: u16, before: &str, end: char, press: impl Fn(u16) -> Press) -> Vec<(String, Press)> {
    let mut forms = vec![(format!("{before}{end}"), press(0))];
    for n in 1..=last {
        forms.push((format!("{before};{n}{end}"), press(modifiers(n))));
    }
    forms
}

type Rows = Vec<(String, Press)>;

fn letters() -> Rows {
    let mut rows = Rows::new();
    for (n, letter) in (1..=26u8).zip('A'..='Z') {
        let lowercase = letter.to_ascii_lowercase() as u32;
        rows.push(((n as char).to_string(), character(lowercase, CTRL)));
        rows.push((format!("\x1b{letter}"), character(letter as u32, ALT)));
    }
    rows
}

fn csi_u() -> Rows {
    let row = |c| forms(8, &format!("\x1b[{c}"), 'u', move |m| character(c, m));
    (0..128).flat_map(row).collect()
}

fn other_keys() -> Rows {
    let mut rows = Rows::new();
    for c in 0..128 {
        for n in 1..=8 {
            let m = modifiers(n);
            let press = match c {
                8 | 127 => named("Backspace", m),
                9 => named("Tab", m),
                10 | 13 => named("Enter", m),
                27 => named("Escape", m),
                _ => character(c, m),
            };
            rows.push((format!("\x1b[27;{n};{c}~"), press));
        }
    }
    rows
}

fn cursor_keys() -> Rows {
    let mut rows = Rows::new();
    let arrows = [
        ('A', "UpArrow"),
        ('B', "DownArrow"),
        ('C', "RightArrow"),
        ('D', "LeftArrow"),
        ('H', "Home"),
        ('F', "End"),
    ];
    for (letter, name) in arrows {
        rows.push((format!("\x1b[{letter}"), named(name, 0)));
        rows.extend(forms(16, "\x1b[1", letter, |m| named(name, m)));
    }
    for (number, letter) in (1..=4).zip('P'..='S') {
        rows.push((format!("\x1bO{letter}"), function(number, 0)));
        rows.extend(forms(16, "\x1b[1", letter, |m| function(number, m)));
    }
    rows
}

fn rxvt_arrows() -> Rows {
    let mut rows = Rows::new();
    let arrows = [
        ('a', "UpArrow"),
        ('b', "DownArrow"),
        ('c', "RightArrow"),
        ('d', "LeftArrow"),
    ];
    for (letter, name) in arrows {
        rows.push((format!("\x1b[{letter}"), named(name, SHIFT)));
        rows.push((format!("\x1bO{letter}"), named(name, CTRL)));
    }
    rows
}

fn application_arrows() -> Rows {
    let mut rows = Rows::new();
    let arrows = [
        ('A', "ApplicationUpArrow"),
        ('B', "ApplicationDownArrow"),
        ('C', "ApplicationRightArrow"),
        ('D', "ApplicationLeftArrow"),
    ];
    for (letter, name) in arrows {
        rows.push((format!("\x1bO{letter}"), named(name, 0)));
        rows.extend(forms(8, "\x1bO1", letter, |m| named(name, m)));
    }
    rows
}

fn function_keys() -> Rows {
    // The numbers of a VT220 leave out 16, 22, 27 and 30.
    let codes = (11..=34).filter(|code| ![16, 22, 27, 30].contains(code));
    (1..=20)
        .zip(codes)
        .flat_map(|(n, code)| forms(16, &format!("\x1b[{code}"), '~', move |m| function(n, m)))
        .collect()
}

fn editing_keys() -> Rows {
    let mut rows = Rows::new();
    let keys = [
        (2, "Insert"),
        (3, "Delete"),
        (1, "Home"),
        (7, "Home"),
        (4, "End"),
        (8, "End"),
        (5, "PageUp"),
        (6, "PageDown"),
    ];
    for (digit, name) in keys {
        for (end, m) in [('~', 0), ('$', SHIFT), ('^', CTRL), ('@', SHIFT | CTRL)] {
            rows.push((format!("\x1b[{digit}{end}"), named(name, m)));
        }
    }
    rows
}

fn single_keys() -> Rows {
    let keys = [
        ("\x7f", named("Backspace", 0)),
        ("\x08", named("Backspace", 0)),
        ("\x1b", named("Escape", 0)),
        ("\t", named("Tab", 0)),
        ("\r", named("Enter", 0)),
        ("\n", named("Enter", 0)),
        ("\x1b[Z", named("Tab", SHIFT)),
        ("\x1b[200~", named("InternalPasteStart", 0)),
        ("\x1b[201~", named("InternalPasteEnd", 0)),
        ("\x1b[", character('[' as u32, ALT)),
    ];
    keys.map(|(key, press)| (key.to_string(), press)).into()
}

/// All entries, in the order of filling.
pub fn entries() -> Vec<Entry> {
    let rules = [
        letters(),
        csi_u(),
        other_keys(),
        cursor_keys(),
        rxvt_arrows(),
        application_arrows(),
        function_keys(),
        editing_keys(),
        single_keys(),
    ];
    let mut entries = Vec::new();
    for (rule, rows) in (1..).zip(rules) {
        for (place, (key, press)) in (1..).zip(rows) {
            let key = key.into_bytes();
            entries.push(Entry {
                rule,
                place,
                key,
                press,
            });
        }
    }
    entries
}
