//! What a map is asked, and what it answers.

use std::fmt;

/// One step on a map.
#[derive(Clone, PartialEq, Eq, Hash)]
pub enum Record {
    Insert { key: Vec<u8>, value: u32 },
    Lookup { input: Vec<u8>, open: bool },
}

#[derive(Debug, Clone, Copy, PartialEq, Eq)]
pub enum Answer {
    Inserted,
    None,
    Exact(usize, u32),
    Ambiguous(usize, u32),
    NeedData,
    /// The original panicked.
    Panic,
    /// The port refuses, with this number.
    #[cfg(feature = "map-port")]
    Refused(u8),
}

pub fn insert(key: &[u8], value: u32) -> Record {
    let key = key.to_vec();
    Record::Insert { key, value }
}

/// Lookups of an input to which more may come, and of the same to which none comes.
pub fn lookups(input: &[u8]) -> [Record; 2] {
    [true, false].map(|open| Record::Lookup {
        input: input.to_vec(),
        open,
    })
}

pub fn hex(bytes: &[u8]) -> String {
    bytes.iter().map(|byte| format!("{byte:02X}")).collect()
}

impl fmt::Display for Record {
    fn fmt(&self, f: &mut fmt::Formatter) -> fmt::Result {
        match self {
            Record::Insert { key, value } => write!(f, "insert\t{}\t{value}", hex(key)),
            Record::Lookup { input, open } => {
                write!(f, "lookup\t{}\t{}", u8::from(*open), hex(input))
            }
        }
    }
}

impl fmt::Display for Answer {
    fn fmt(&self, f: &mut fmt::Formatter) -> fmt::Result {
        match self {
            Answer::Inserted => write!(f, "ok"),
            Answer::None => write!(f, "none"),
            Answer::Exact(len, value) => write!(f, "exact\t{len}\t{value}"),
            Answer::Ambiguous(len, value) => write!(f, "ambiguous\t{len}\t{value}"),
            Answer::NeedData => write!(f, "need"),
            Answer::Panic => write!(f, "panic"),
            #[cfg(feature = "map-port")]
            Answer::Refused(number) => write!(f, "refused\t{number}"),
        }
    }
}
