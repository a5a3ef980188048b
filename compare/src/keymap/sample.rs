//! Writes a list of maps with lookups in them and, beside it, the original's answers, for the port
//! to be run on.

use super::original::Original;
use super::record::{Answer, Record, insert, lookups};
use super::table;
use crate::generator::Generator;
use std::collections::HashSet;
use std::fs;

/// Maps that are drawn, and keys of the built-in table that are taken.
const DRAWN_MAPS: u32 = 12;
const TABLE_STEP: usize = 90;

/// Keys of maps in which a key begins another, goes on behind a gap, or parts from another late.
const WORKED: [&[&[u8]]; 9] = [
    &[b"a"],
    &[b"a", b"a", b"b"],
    &[b"", b"a"],
    &[b"abc", b"a"],
    &[b"a", b"abcd", b"abce"],
    &[b"ab", b"abcd", b""],
    &[b"\x1b[A", b"\x1b[B", b"\x1b[1;2A"],
    &[b"\x1b", b"\x1b[", b"\x1b[200~"],
    &[b"\x00", b"\xff", b"\x80\x00"],
];

/// Writes the list and the answers to the files of these paths.
pub fn write(cases: &str, answers: &str) -> Result<(), String> {
    let sample = Sample::collect();
    for (path, text) in [(cases, &sample.cases), (answers, &sample.answers)] {
        fs::write(path, text).map_err(|error| format!("{path} cannot be written: {error}"))?;
    }
    eprintln!(
        "compare: {} lines are written",
        sample.cases.lines().count()
    );
    Ok(())
}

#[derive(Default)]
struct Sample {
    cases: String,
    answers: String,
    original: Original,
    /// The lookups in the map since its last insert.
    seen: HashSet<Record>,
}

impl Sample {
    fn collect() -> Self {
        let mut sample = Sample::default();
        sample.start();
        sample.look_up(b"a");
        for keys in WORKED {
            sample.add_worked(keys);
        }
        sample.add_deep();
        sample.add_table();
        let mut generator = Generator::new();
        for _ in 0..DRAWN_MAPS {
            sample.add_drawn(&mut generator);
        }
        sample
    }

    /// Starts an empty map.
    fn start(&mut self) {
        self.original = Original::default();
        self.seen.clear();
        self.cases += "new\n";
        self.answers += "ok\n";
    }

    fn insert(&mut self, key: &[u8], value: u32) {
        let answer = self.original.insert(key, value);
        self.seen.clear();
        self.add(&insert(key, value), answer);
    }

    /// Looks an input up, open and closed, unless that was done or the original panics.
    fn look_up(&mut self, input: &[u8]) {
        for record in lookups(input) {
            let Record::Lookup { input, open } = &record else {
                continue;
            };
            let answer = self.original.lookup(input, *open);
            if answer != Answer::Panic && self.seen.insert(record.clone()) {
                self.add(&record, answer);
            }
        }
    }

    fn add(&mut self, record: &Record, answer: Answer) {
        self.cases += &format!("{record}\n");
        self.answers += &format!("{answer}\n");
    }

    /// Looks up each beginning of each key, alone and with a byte that is in no key.
    fn add_worked(&mut self, keys: &[&[u8]]) {
        self.start();
        for (value, key) in (1..).zip(keys) {
            self.insert(key, value);
        }
        for key in keys {
            for len in 0..=key.len() {
                self.look_up(&key[..len]);
            }
            self.look_up(&[key, b"x".as_slice()].concat());
            let cut = &key[..key.len().saturating_sub(1)];
            self.look_up(&[cut, b"x".as_slice()].concat());
        }
    }

    /// The longest keys that the port takes.
    fn add_deep(&mut self) {
        let bytes: Vec<u8> = (100..165).collect();
        self.start();
        for (value, len) in [(63_000, 63), (u32::MAX, 64)] {
            self.insert(&bytes[..len], value);
            for len in [1, 62, 63, 64, 65] {
                self.look_up(&bytes[..len]);
            }
        }
    }

    /// Some keys of the built-in table, all in one map.
    fn add_table(&mut self) {
        self.start();
        let keys: Vec<Vec<u8>> = table::keys().into_iter().step_by(TABLE_STEP).collect();
        for (value, key) in (1..).zip(&keys) {
            self.insert(key, value);
        }
        for key in &keys {
            self.look_up(key);
            self.look_up(&key[..key.len() / 2]);
        }
    }

    /// A few keys over three letters, each with lookups after it.
    fn add_drawn(&mut self, generator: &mut Generator) {
        self.start();
        for _ in 0..2 + generator.below(4) {
            let key = draw(generator, b"pqr", 5);
            self.insert(&key, generator.below(u32::MAX));
            self.look_up(&draw(generator, b"pqr", 6));
            self.look_up(&draw(generator, b"pqrs", 4));
        }
    }
}

fn draw(generator: &mut Generator, letters: &[u8], end: u32) -> Vec<u8> {
    let len = generator.below(end);
    (0..len).map(|_| generator.one_of(letters)).collect()
}
