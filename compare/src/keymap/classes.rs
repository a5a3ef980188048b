//! The classes of differences between the port's map and the original's, and what the port must
//! answer in them.

use super::record::{Answer, Record};
use super::stored::Stored;

pub const CLASSES: [&str; 3] = ["key-over-64", "too-few-nodes", "lookup-of-nothing"];

const KEY_OVER_64: usize = 0;
const TOO_FEW_NODES: usize = 1;
const LOOKUP_OF_NOTHING: usize = 2;

const LONGEST_KEY: usize = 64;
const MOST_NODES: usize = 8192;

/// What the port must answer to a record.
pub struct Expected {
    /// What the original answers.
    pub original: Answer,
    /// The place in `CLASSES` of the class that the record belongs to, if any.
    pub class: Option<usize>,
    pub answer: Answer,
    /// The nodes in use then.
    pub used: usize,
}

impl Expected {
    /// Asks the original, whose map keeps only what the port must store of it.
    pub fn new(record: &Record, stored: &mut Stored, supplied: usize) -> Self {
        let class = class(record, stored, supplied);
        let original = match record {
            Record::Insert { key, value } if class.is_some() => {
                stored.original.clone().insert(key, *value)
            }
            Record::Insert { key, value } => stored.insert(key, *value),
            Record::Lookup { input, open } => stored.original.lookup(input, *open),
        };
        let class = class.filter(|place| original == ORIGINALS[*place]);
        Expected {
            original,
            class,
            answer: class.map_or(original, |place| Answer::Refused(place as u8 + 1)),
            used: stored.nodes(),
        }
    }
}

/// What the original answers in each class: it takes keys of any length and as many as there are,
/// and panics at an empty input where nothing is stored.
const ORIGINALS: [Answer; 3] = [Answer::Inserted, Answer::Inserted, Answer::Panic];

/// The first class that a record belongs to. Its place and 1 are the number of the refusal.
fn class(record: &Record, stored: &Stored, supplied: usize) -> Option<usize> {
    match record {
        Record::Insert { key, .. } if key.len() > LONGEST_KEY => Some(KEY_OVER_64),
        Record::Insert { key, .. } => {
            let too_few = stored.nodes_with(key) > supplied.min(MOST_NODES);
            too_few.then_some(TOO_FEW_NODES)
        }
        Record::Lookup { input, .. } => {
            (input.is_empty() && stored.is_empty()).then_some(LOOKUP_OF_NOTHING)
        }
    }
}
