//! The classes of differences between the port and the original. Each has a rule that says which
//! cases belong to it, and what the port must answer there.

use crate::case::{ALL_MODIFIERS, Answer, Case, NUMPAD9};
use crate::original;

/// The port must answer this in place of `said`, the answer before the rule; `None` where the case
/// is not of the class.
type Rule = fn(case: &Case, room: usize, said: &Answer) -> Option<Answer>;

pub struct Class {
    pub name: &'static str,
    rule: Rule,
}

/// In the order in which the rules apply, so that of several refusals the first counts.
pub const CLASSES: [Class; 7] = [
    Class {
        name: "modifiers-over-2047",
        rule: modifiers_over_2047,
    },
    Class {
        name: "no-scalar",
        rule: no_scalar,
    },
    Class {
        name: "function-zero",
        rule: function_zero,
    },
    Class {
        name: "function-over-24",
        rule: function_over_24,
    },
    Class {
        name: "modify-other-keys-zero",
        rule: modify_other_keys_zero,
    },
    Class {
        name: "numpad9-page-up",
        rule: numpad9_page_up,
    },
    Class {
        name: "output-too-short",
        rule: output_too_short,
    },
];

/// What the port must answer to a case with so much room for the output.
pub struct Expected {
    /// `None`: what the original said.
    instead: Option<Answer>,
    /// The places in `CLASSES` of the classes that the case belongs to.
    pub classes: Vec<usize>,
}

impl Expected {
    pub fn new(case: &Case, room: usize, said: &Answer) -> Self {
        let mut expected = Expected {
            instead: None,
            classes: Vec::new(),
        };
        for (place, class) in CLASSES.iter().enumerate() {
            if let Some(answer) = (class.rule)(case, room, expected.answer(said)) {
                expected.instead = Some(answer);
                expected.classes.push(place);
            }
        }
        expected
    }

    pub fn answer<'a>(&'a self, said: &'a Answer) -> &'a Answer {
        self.instead.as_ref().unwrap_or(said)
    }
}

/// The original's type of modifiers has no other bits.
fn modifiers_over_2047(case: &Case, _: usize, said: &Answer) -> Option<Answer> {
    let applies = case.modifiers > ALL_MODIFIERS && *said == Answer::CannotBeAsked;
    applies.then_some(Answer::Refused(7))
}

/// A `char` of the original is always a Unicode scalar value.
fn no_scalar(case: &Case, _: usize, said: &Answer) -> Option<Answer> {
    let applies = case.is_no_scalar() && *said == Answer::CannotBeAsked;
    applies.then_some(Answer::Refused(8))
}

fn function_zero(case: &Case, _: usize, said: &Answer) -> Option<Answer> {
    let applies = case.is_function() && case.number == 0 && *said == Answer::Panic;
    applies.then_some(Answer::Refused(9))
}

/// The original returns an error up to 255, and has no greater numbers.
fn function_over_24(case: &Case, _: usize, said: &Answer) -> Option<Answer> {
    let awaited = match case.number {
        25..=255 => Answer::Error,
        256.. => Answer::CannotBeAsked,
        _ => return None,
    };
    (case.is_function() && *said == awaited).then_some(Answer::Refused(9))
}

/// The port takes 0 for the mode that is off, as if no value was given.
fn modify_other_keys_zero(case: &Case, _: usize, said: &Answer) -> Option<Answer> {
    if case.modify_other_keys != Some(0) || !matches!(said, Answer::Bytes(_)) {
        return None;
    }
    let off = original::encode(&Case {
        modify_other_keys: None,
        ..*case
    });
    (off != *said && matches!(off, Answer::Bytes(_))).then_some(off)
}

/// The original sends PageDown's number for the key that is PageUp; the rest stays.
fn numpad9_page_up(case: &Case, _: usize, said: &Answer) -> Option<Answer> {
    let Answer::Bytes(bytes) = said else {
        return None;
    };
    let rest = bytes.strip_prefix(b"\x1b[6")?;
    (case.place == NUMPAD9).then(|| Answer::Bytes([b"\x1b[5", rest].concat()))
}

/// The original grows a `String`; the port writes to an output of a fixed length.
fn output_too_short(_: &Case, room: usize, said: &Answer) -> Option<Answer> {
    let applies = matches!(said, Answer::Bytes(bytes) if bytes.len() > room);
    applies.then_some(Answer::Refused(10))
}
