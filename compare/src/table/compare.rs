//! Compares the port's table with the original's, and its fillings with their definition.

use super::rules::{self, Entry};
use super::{filled, original, port};
use crate::progress::Progress;
use crate::tally::Tally;

/// One node more than the table takes.
const MOST_NODES: u32 = 5328;

pub fn compare() -> Result<bool, String> {
    crate::original::check_places()?;
    let entries = rules::entries();
    let mut tally = Tally::new([]);
    compare_keys(&entries, &mut tally)?;
    compare_fillings(&entries, &mut tally);
    Ok(tally.conclude())
}

/// Each key of the original has its press in the port's table, and the port has no other key.
fn compare_keys(entries: &[Entry], tally: &mut Tally) -> Result<(), String> {
    let presses = original::presses()?;
    println!("keys of the original: {}", presses.len());
    let built = port::build(MOST_NODES, entries.len());
    for (number, entry) in entries.iter().enumerate() {
        let place = (entry.rule, entry.place);
        let key = port::key(entry.rule, entry.place);
        let press = built.press(number);
        if key.as_ref() == Some(&entry.key) && press.as_ref() == presses.get(&entry.key) {
            tally.equal();
        } else {
            tally.unnamed(|| println!("{place:?} {:02X?}: {key:02X?} {press:?}", entry.key));
        }
    }
    for rule in 1..=9 {
        let count = entries.iter().filter(|entry| entry.rule == rule).count() as u32;
        match port::key(rule, count + 1) {
            None => tally.equal(),
            Some(key) => tally.unnamed(|| println!("rule {rule} goes on with {key:02X?}")),
        }
    }
    for key in presses.keys() {
        if !entries.iter().any(|entry| entry.key == *key) {
            tally.unnamed(|| println!("{key:02X?} is the original's alone"));
        }
    }
    Ok(())
}

/// On every number of nodes: the refusal, the nodes in use, and what is stored under each key.
fn compare_fillings(entries: &[Entry], tally: &mut Tally) {
    let mut progress = Progress::new(u64::from(MOST_NODES) + 1);
    for nodes in 0..=MOST_NODES {
        let built = port::build(nodes, entries.len());
        let wanted = filled::fill(entries, nodes);
        let same = |(number, entry): (usize, &Entry)| {
            built.press(number).as_ref() == wanted.stored.get(entry.key.as_slice()).copied()
        };
        if built.refused == wanted.refused
            && built.used == wanted.used
            && entries.iter().enumerate().all(same)
        {
            tally.equal();
        } else {
            tally.unnamed(|| {
                println!(
                    "a filling on {nodes} nodes: {} {}",
                    built.refused, built.used
                )
            });
        }
        progress.step(tally.cases());
    }
}
