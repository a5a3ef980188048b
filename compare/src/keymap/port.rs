//! Calls into the port, which takes a script of records and writes an answer of eight bytes to each.

use super::record::{Answer, Record};

/// The bytes of an answer.
pub const ANSWER: usize = 8;

/// The longest key or input that a script can have.
pub const LONGEST: usize = 255;

unsafe extern "C" {
    fn cilvedroz_map(
        nodes: u32,
        script: *const u8,
        script_len: usize,
        out: *mut u8,
        out_len: usize,
    ) -> u32;
}

/// Works through a script on a map over so many nodes; answers how many records were worked.
pub fn run(nodes: u32, script: &[u8], out: &mut [u8]) -> u32 {
    // SAFETY: the pointers and lengths are those of slices that live through the call.
    unsafe {
        cilvedroz_map(
            nodes,
            script.as_ptr(),
            script.len(),
            out.as_mut_ptr(),
            out.len(),
        )
    }
}

pub fn script<'a>(records: impl IntoIterator<Item = &'a Record>) -> Vec<u8> {
    let mut script = Vec::new();
    for record in records {
        match record {
            Record::Insert { key, value } => {
                script.extend([1, length(key)]);
                script.extend(key);
                script.extend(value.to_le_bytes());
            }
            Record::Lookup { input, open } => {
                script.extend([2, u8::from(*open), length(input)]);
                script.extend(input);
            }
        }
    }
    script
}

fn length(bytes: &[u8]) -> u8 {
    u8::try_from(bytes.len()).expect("a key of a script has at most 255 bytes")
}

/// The bytes that say this answer, with so many nodes in use then.
pub fn answer_bytes(answer: Answer, used: usize) -> [u8; ANSWER] {
    let (kind, len, value) = match answer {
        Answer::Inserted => (0, 0, 0),
        Answer::None => (1, 0, 0),
        Answer::Exact(len, value) => (2, len as u8, value),
        Answer::Ambiguous(len, value) => (3, len as u8, value),
        Answer::NeedData => (4, 0, 0),
        Answer::Refused(number) => (128 + number, 0, 0),
        // The port never says it.
        Answer::Panic => (255, 0, 0),
    };
    let [low, high] = (used as u16).to_le_bytes();
    let [a, b, c, d] = value.to_le_bytes();
    [kind, len, low, high, a, b, c, d]
}
