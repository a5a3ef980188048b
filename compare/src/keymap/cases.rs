//! The maps that are compared, each with the number of nodes that it is given.

use super::port::LONGEST;
use super::record::{Record, insert, lookups};
use crate::generator::Generator;

/// So many nodes are always enough.
const PLENTY: u32 = 8200;

/// Maps of which every short input is looked up, and maps that get each number of nodes.
const SMALL_MAPS: u32 = 3000;
const SCANT_MAPS: u32 = 400;

/// The lengths of deep keys, and of the inputs for them.
const DEEP: [usize; 9] = [0, 1, 62, 63, 64, 65, 66, 128, 254];

/// Numbers of nodes around the most that a map uses.
const NEAR_MOST: [u32; 8] = [8190, 8191, 8192, 8193, 8199, 8200, 8201, u32::MAX];

/// One run of the port: records on a map over so many nodes.
pub struct Run {
    pub nodes: u32,
    pub records: Vec<Record>,
}

/// All runs.
pub fn runs() -> Vec<Run> {
    let mut generator = Generator::new();
    let mut runs = Vec::new();
    for _ in 0..SMALL_MAPS {
        runs.push(small(&mut generator));
    }
    for _ in 0..SCANT_MAPS {
        runs.extend(scant(&mut generator));
    }
    runs.extend(worked());
    runs.extend(deep());
    runs.extend(full(&mut generator));
    runs
}

/// Up to eight keys over up to three letters, and every input of up to five letters, one of which
/// is in no key.
fn small(generator: &mut Generator) -> Run {
    let letters = letters(generator);
    let mut records = inserts(generator, &letters, 4);
    records.extend(inputs(&letters, 5).iter().flat_map(|i| lookups(i)));
    let nodes = PLENTY;
    Run { nodes, records }
}

/// The same keys on each number of nodes, from none to more than enough; after each insert every
/// input of up to three letters is looked up.
fn scant(generator: &mut Generator) -> Vec<Run> {
    let letters = letters(generator);
    let inputs = inputs(&letters, 3);
    let looks: Vec<Record> = inputs.iter().flat_map(|i| lookups(i)).collect();
    let mut records = Vec::new();
    let mut enough = 1;
    for record in inserts(generator, &letters, 6) {
        if let Record::Insert { key, .. } = &record {
            enough += key.len() as u32;
        }
        records.push(record);
        records.extend(looks.iter().cloned());
    }
    (0..=enough + 1)
        .map(|nodes| Run {
            nodes,
            records: records.clone(),
        })
        .collect()
}

/// One to three letters of the keys, and at the end one that is in no key.
fn letters(generator: &mut Generator) -> Vec<u8> {
    let count = 2 + generator.below(3) as usize;
    let mut letters = Vec::new();
    while letters.len() < count {
        let letter = match generator.below(2) {
            0 => generator.one_of(&[0, 1, 0x1b, b'[', b'a', 0x7f, 0x80, 0xfe, 0xff]),
            _ => generator.below(256) as u8,
        };
        if !letters.contains(&letter) {
            letters.push(letter);
        }
    }
    letters
}

/// Inserts of up to eight keys of up to `longest` letters, of which some come again.
fn inserts(generator: &mut Generator, letters: &[u8], longest: u32) -> Vec<Record> {
    let (_, own) = letters.split_last().expect("there are two letters");
    (0..generator.below(9))
        .map(|_| {
            let len = generator.below(longest + 1);
            let key: Vec<u8> = (0..len).map(|_| generator.one_of(own)).collect();
            insert(&key, generator.below(u32::MAX))
        })
        .collect()
}

/// Every input of up to `longest` letters.
fn inputs(letters: &[u8], longest: usize) -> Vec<Vec<u8>> {
    let mut inputs = vec![Vec::new()];
    let mut start = 0;
    for _ in 0..longest {
        let end = inputs.len();
        for place in start..end {
            for letter in letters {
                let longer = [inputs[place].as_slice(), &[*letter]].concat();
                inputs.push(longer);
            }
        }
        start = end;
    }
    inputs
}

/// Where a refused first insert leaves no root behind, and where the empty key is the only one.
fn worked() -> Vec<Run> {
    let keys: [&[&[u8]]; 4] = [&[b"abc", b"ab", b"abd"], &[b"", b""], &[b"", b"a"], &[b"a"]];
    let mut runs = Vec::new();
    for keys in keys {
        for nodes in 0..6 {
            let mut records = Vec::new();
            for (value, key) in (1..).zip(keys) {
                records.push(insert(key, value));
                records.extend(inputs(b"abx", 4).iter().flat_map(|i| lookups(i)));
            }
            runs.push(Run { nodes, records });
        }
    }
    runs
}

/// Two keys of which one or both may be deep; the second is the first, cut or made longer, or has
/// another last byte.
fn deep() -> Vec<Run> {
    let long: Vec<u8> = (0..LONGEST as u8).collect();
    let same = [b'k'; LONGEST];
    let mut runs = Vec::new();
    for bytes in [&long[..], &same[..]] {
        for first in DEEP {
            for second in DEEP {
                for other in [false, true] {
                    let keys = [bytes[..first].to_vec(), changed(bytes, second, other)];
                    runs.push(deep_run(&keys, bytes));
                }
            }
        }
    }
    runs
}

/// The first bytes, of which the last may be another one.
fn changed(bytes: &[u8], len: usize, other: bool) -> Vec<u8> {
    let mut key = bytes[..len].to_vec();
    if let Some(last) = key.last_mut()
        && other
    {
        *last ^= 0xff;
    }
    key
}

fn deep_run(keys: &[Vec<u8>], bytes: &[u8]) -> Run {
    let mut records = Vec::new();
    for (value, key) in (1..).zip(keys) {
        records.push(insert(key, value));
        for len in DEEP.into_iter().chain([LONGEST]) {
            records.extend(lookups(&bytes[..len]));
            records.extend(lookups(&changed(bytes, len, true)));
        }
    }
    let nodes = PLENTY;
    Run { nodes, records }
}

/// Maps that fill all nodes, with numbers of them around the most that a map uses.
fn full(generator: &mut Generator) -> Vec<Run> {
    let mut keys: Vec<Vec<u8>> = (0..127).map(|first| chain(first, 64)).collect();
    let to_the_end = [chain(200, 64), chain(201, 63), chain(202, 1), chain(200, 1)];
    keys.extend(to_the_end);
    keys.extend([chain(126, 64), chain(126, 30), Vec::new(), chain(203, 65)]);
    let drawn: Vec<Vec<u8>> = (0..600)
        .map(|_| {
            let len = generator.below(65);
            (0..len).map(|_| generator.below(3) as u8).collect()
        })
        .collect();
    let mut runs = Vec::new();
    for nodes in NEAR_MOST {
        runs.push(full_run(nodes, &keys));
        runs.push(full_run(nodes, &drawn));
    }
    runs
}

/// A key that shares no beginning with one of another first byte.
fn chain(first: u8, len: usize) -> Vec<u8> {
    let mut key = vec![first];
    key.extend((1..len).map(|place| place as u8));
    key
}

/// Each key is looked up after its insert, and all are at the end.
fn full_run(nodes: u32, keys: &[Vec<u8>]) -> Run {
    let mut records = Vec::new();
    for (value, key) in (1..).zip(keys) {
        records.push(insert(key, value));
        records.extend(lookups(key));
    }
    for key in keys {
        let longer = [key.as_slice(), b"\x07"].concat();
        let shorter = &key[..key.len().saturating_sub(1)];
        for input in [key, longer.as_slice(), shorter] {
            records.extend(lookups(input));
        }
    }
    Run { nodes, records }
}
