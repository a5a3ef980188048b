//! Times lookups in both maps, on the keys of the original's built-in table.

use super::port::{self, ANSWER};
use super::record::{Record, insert};
use super::stored::Stored;
use super::table;
use crate::generator::Generator;
use std::hint::black_box;
use std::time::{Duration, Instant};

/// So many lookups are drawn, and gone through for a second or more at each measurement.
const LOOKUPS: usize = 100_000;
const LEAST: Duration = Duration::from_secs(1);

/// The best of so many measurements of each counts.
const ROUNDS: u32 = 5;

const NODES: u32 = 8192;

/// Prints the lookups per second of both maps.
pub fn time() -> Result<(), String> {
    let bench = Bench::new();
    bench.check()?;
    let (mut original, mut port) = (0.0, 0.0);
    for _ in 0..ROUNDS {
        original = bench.time_original().max(original);
        port = bench.time_port().max(port);
    }
    println!("{} keys on {} nodes", bench.keys, bench.stored.nodes());
    println!("original {original:>12.0} lookups per second");
    println!("port     {port:>12.0} lookups per second");
    println!("ratio    {:>12.2}", port / original);
    Ok(())
}

/// The work of both, in the form of the port's scripts.
struct Bench {
    keys: usize,
    stored: Stored,
    inserts: Vec<u8>,
    lookups: Vec<u8>,
    /// The inserts and then the lookups.
    whole: Vec<u8>,
}

impl Bench {
    fn new() -> Self {
        let keys = table::keys();
        let mut stored = Stored::default();
        let mut records = Vec::new();
        for (value, key) in (0..).zip(&keys) {
            stored.insert(key, value);
            records.push(insert(key, value));
        }
        let inserts = port::script(&records);
        let lookups = port::script(&draw(&keys));
        Bench {
            keys: keys.len(),
            stored,
            whole: [inserts.as_slice(), &lookups].concat(),
            inserts,
            lookups,
        }
    }

    /// Refuses where the two do not answer alike.
    fn check(&self) -> Result<(), String> {
        let mut original = vec![0; LOOKUPS * ANSWER];
        look_up_all(&self.stored, &self.lookups, &mut original);
        let mut port = vec![0; (self.keys + LOOKUPS) * ANSWER];
        let worked = port::run(NODES, &self.whole, &mut port) as usize;
        if worked != self.keys + LOOKUPS || port[self.keys * ANSWER..] != original {
            return Err("the answers differ: run the comparison first".to_string());
        }
        Ok(())
    }

    /// The original's lookups per second.
    fn time_original(&self) -> f64 {
        let mut out = vec![0; LOOKUPS * ANSWER];
        let mut turns = 0;
        let start = Instant::now();
        while start.elapsed() < LEAST {
            look_up_all(&self.stored, black_box(&self.lookups), &mut out);
            black_box(&mut out);
            turns += 1;
        }
        per_second(turns, start.elapsed())
    }

    /// The port's lookups per second. Each call of it fills the map first, so the time of as many
    /// calls that only do that is taken off.
    fn time_port(&self) -> f64 {
        let mut out = vec![0; (self.keys + LOOKUPS) * ANSWER];
        let (mut turns, mut filling) = (0, Duration::ZERO);
        let start = Instant::now();
        while start.elapsed() < LEAST + 2 * filling {
            port::run(NODES, black_box(&self.whole), &mut out);
            let filled = Instant::now();
            port::run(NODES, black_box(&self.inserts), &mut out);
            black_box(&mut out);
            filling += filled.elapsed();
            turns += 1;
        }
        per_second(turns, start.elapsed() - 2 * filling)
    }
}

fn per_second(turns: u32, time: Duration) -> f64 {
    f64::from(turns) * LOOKUPS as f64 / time.as_secs_f64()
}

/// Lookups of stored keys with up to three further bytes behind, open and closed in turn.
fn draw(keys: &[Vec<u8>]) -> Vec<Record> {
    let mut generator = Generator::new();
    (0..LOOKUPS)
        .map(|place| {
            let mut input = generator.one_of(keys);
            let more = generator.below(4);
            input.extend((0..more).map(|_| generator.below(256) as u8));
            let open = place % 2 == 0;
            Record::Lookup { input, open }
        })
        .collect()
}

/// Does with the original what the port does with a script: reads each lookup, and writes its answer.
fn look_up_all(stored: &Stored, script: &[u8], out: &mut [u8]) {
    let used = stored.nodes();
    let mut rest = script;
    for place in out.chunks_exact_mut(ANSWER) {
        let [_, open, len, behind @ ..] = rest else {
            return;
        };
        let (input, behind) = behind.split_at(usize::from(*len));
        let answer = stored.original.ask(input, *open == 1);
        place.copy_from_slice(&port::answer_bytes(answer, used));
        rest = behind;
    }
}
