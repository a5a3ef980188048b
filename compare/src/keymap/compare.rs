//! Compares what the port's map and the original's answer.

use super::cases::{Run, runs};
use super::classes::{CLASSES, Expected};
use super::port::{self, ANSWER};
use super::record::{Record, insert, lookups};
use super::stored::Stored;
use crate::documented;
use crate::progress::Progress;
use crate::tally::{Tally, print_row};

/// What stands in the output before a call; it is the front of no answer.
const BEFORE: u8 = 0xee;

/// So many bytes are given behind the answers, and must stay as they are.
const BEHIND: usize = ANSWER + 3;

/// The port has so many nodes at hand.
const AT_HAND: u32 = 8200;

/// Bytes at the end of a script that are no record.
const UNREADABLE: [&[u8]; 10] = [
    &[0],
    &[3, 0, 0],
    &[1],
    &[1, 2, b'a'],
    &[1, 1, b'a', 0, 0, 0],
    &[1, 0, 0, 0, 0],
    &[2],
    &[2, 0],
    &[2, 2, 0],
    &[2, 1, 3, b'a', b'b'],
];

/// Answers whether there was no unnamed difference.
pub fn compare() -> Result<bool, String> {
    documented::check(CLASSES)?;
    let runs = runs();
    let mut tally = Tally::new(CLASSES);
    let mut progress = Progress::new(runs.len() as u64 + 1);
    for run in &runs {
        compare_run(run, &mut tally);
        progress.step(tally.cases());
    }
    compare_ends(&mut tally);
    progress.step(tally.cases());
    let asked = runs.iter().flat_map(|run| &run.records);
    let lookups = asked.filter(|record| matches!(record, Record::Lookup { .. }));
    print_row("maps", runs.len() as u64);
    print_row("lookups", lookups.count() as u64);
    Ok(tally.conclude())
}

fn compare_run(run: &Run, tally: &mut Tally) {
    let count = run.records.len();
    let mut output = vec![BEFORE; count * ANSWER + BEHIND];
    let worked = port::run(run.nodes, &port::script(&run.records), &mut output);
    let (answers, behind) = output.split_at(count * ANSWER);
    if worked as usize != count || behind.iter().any(|byte| *byte != BEFORE) {
        tally.unnamed(|| println!("unnamed difference: {worked} of {count} records were worked"));
    }
    let supplied = run.nodes.min(AT_HAND) as usize;
    let mut stored = Stored::default();
    for (place, answer) in answers.chunks(ANSWER).enumerate() {
        let expected = Expected::new(&run.records[place], &mut stored, supplied);
        if answer != port::answer_bytes(expected.answer, expected.used) {
            tally.unnamed(|| show(run, place, &expected, answer));
        } else if let Some(class) = expected.class {
            tally.named(&[class]);
        } else {
            tally.equal();
        }
    }
}

/// Prints an unnamed difference with the inserts before it.
fn show(run: &Run, place: usize, expected: &Expected, answer: &[u8]) {
    println!("unnamed difference: {} nodes", run.nodes);
    let before = run.records[..place].iter();
    for record in before.filter(|record| matches!(record, Record::Insert { .. })) {
        println!("  {record}");
    }
    println!("  {}", run.records[place]);
    println!("  original {}", expected.original);
    println!("  expected {}, {} nodes", expected.answer, expected.used);
    println!("  port     {answer:02x?}");
}

/// What the port's interface alone says: a script ends at a record that cannot be read, and where
/// the output has no room for an answer.
fn compare_ends(tally: &mut Tally) {
    let mut records = vec![insert(b"ab", 7)];
    records.extend(lookups(b"abc"));
    let script = port::script(&records);
    let mut answers = vec![0; records.len() * ANSWER];
    port::run(AT_HAND, &script, &mut answers);
    for end in UNREADABLE {
        let script = [script.as_slice(), end].concat();
        compare_end(&script, &answers, answers.len() + BEHIND, tally);
    }
    for room in 0..=answers.len() {
        compare_end(&script, &answers, room, tally);
    }
}

/// Runs a script with so much room for the output: only whole answers are written.
fn compare_end(script: &[u8], answers: &[u8], room: usize, tally: &mut Tally) {
    let mut output = vec![BEFORE; answers.len() + BEHIND];
    let worked = port::run(AT_HAND, script, &mut output[..room]) as usize;
    let written = answers.len().min(room / ANSWER * ANSWER);
    let (front, behind) = output.split_at(written);
    let right = worked == written / ANSWER
        && front == &answers[..written]
        && behind.iter().all(|byte| *byte == BEFORE);
    if right {
        tally.port_alone();
    } else {
        tally.unnamed(|| println!("unnamed difference: script {script:02x?}, room {room}"));
    }
}
