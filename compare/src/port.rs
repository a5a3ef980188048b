//! Calls into the port.

use crate::case::{Answer, Case};

/// What stands in the output before a call: bytes that are in no UTF-8 text, in a row that shows
/// where one was moved.
const BEFORE: [u8; 64] = {
    let mut bytes = [0; 64];
    let mut place = 0;
    while place < bytes.len() {
        bytes[place] = 0xf8 | (place % 8) as u8;
        place += 1;
    }
    bytes
};

/// What the port is told where no value of modify_other_keys is given: it must not look at it.
const NOT_GIVEN: i64 = 2;

unsafe extern "C" {
    fn cilvedroz_encode(
        place: u32,
        number: u32,
        modifiers: u32,
        encoding: u32,
        application_cursor_keys: u32,
        newline_mode: u32,
        other_given: u32,
        other: i64,
        is_down: u32,
        out: *mut u8,
        out_len: usize,
    ) -> i32;
}

/// What the port answered, and the output after it, with bytes behind the room that it was given.
#[derive(Clone, Copy)]
pub struct Reply {
    pub answered: i32,
    pub output: [u8; BEFORE.len()],
}

pub fn encode(case: &Case, room: usize) -> Reply {
    let mut output = BEFORE;
    let given = &mut output[..room];
    // SAFETY: `out` and `out_len` are those of a slice that lives through the call.
    let answered = unsafe {
        cilvedroz_encode(
            case.place,
            case.number,
            case.modifiers,
            case.encoding,
            case.application_cursor_keys.into(),
            case.newline_mode.into(),
            case.modify_other_keys.is_some().into(),
            case.modify_other_keys.unwrap_or(NOT_GIVEN),
            case.is_down.into(),
            given.as_mut_ptr(),
            given.len(),
        )
    };
    Reply { answered, output }
}

impl Reply {
    /// Whether it is this answer, with nothing written but its bytes.
    pub fn is(&self, answer: &Answer) -> bool {
        match answer {
            Answer::Bytes(bytes) => {
                let (written, rest) = self.output.split_at(bytes.len());
                usize::try_from(self.answered) == Ok(bytes.len())
                    && written == bytes
                    && *rest == BEFORE[bytes.len()..]
            }
            Answer::Refused(number) => {
                i64::from(self.answered) == -i64::from(*number) && self.output == BEFORE
            }
            Answer::Error | Answer::Panic | Answer::CannotBeAsked => false,
        }
    }
}
