//! Compares the port's characters and lossy text with what Rust's own UTF-8 says.

use crate::generator::Generator;
use crate::progress::Progress;
use crate::tally::{Tally, print_row};
use std::str;

/// What stands in the output before a call: a byte that is in no UTF-8 text.
const BEFORE: u8 = 0xf8;

/// So many bytes are given behind the text, and must stay as they are.
const BEHIND: usize = 7;

/// The port's answer for an output that is too short: its number is 10.
const TOO_SHORT: u64 = u64::MAX - 10;

/// The bytes at the edges of the rows of well-formed UTF-8, and some within.
const EDGES: [u8; 26] = [
    0x00, 0x1b, 0x41, 0x7f, 0x80, 0x8f, 0x90, 0x9f, 0xa0, 0xbf, 0xc0, 0xc1, 0xc2, 0xdf, 0xe0, 0xe1,
    0xec, 0xed, 0xee, 0xef, 0xf0, 0xf1, 0xf3, 0xf4, 0xf5, 0xff,
];

/// The marker that ends a paste.
const MARKER: &[u8] = b"\x1b[201~";

/// So many longer texts are drawn, and so long are they at most.
const TEXTS: u32 = 200_000;
const LONGEST: u32 = 96;

/// So many texts as long as a read buffer are drawn.
const LONG_TEXTS: u32 = 2_000;
const LONG: u32 = 4096;

unsafe extern "C" {
    fn cilvedroz_character(bytes: *const u8, len: usize) -> u64;
    fn cilvedroz_lossy(text: *const u8, len: usize, out: *mut u8, out_len: usize) -> u64;
    fn cilvedroz_marker(text: *const u8, len: usize) -> u64;
}

/// Answers whether there was no difference.
pub fn compare() -> Result<bool, String> {
    let mut comparison = Comparison {
        tally: Tally::new([]),
        progress: Progress::new(256 + EDGES.len() as u64 + 17 + 2),
        output: Vec::new(),
    };
    comparison.short_inputs();
    comparison.edges();
    comparison.scalars();
    comparison.drawn(TEXTS, LONGEST);
    comparison.drawn(LONG_TEXTS, LONG);
    Ok(comparison.tally.conclude())
}

struct Comparison {
    tally: Tally,
    progress: Progress,
    output: Vec<u8>,
}

impl Comparison {
    /// All inputs of up to three bytes.
    fn short_inputs(&mut self) {
        let before = self.tally.cases();
        self.input(&[]);
        for a in 0..=255 {
            self.input(&[a]);
            for b in 0..=255 {
                self.input(&[a, b]);
                for c in 0..=255 {
                    self.input(&[a, b, c]);
                }
            }
            self.progress.step(self.tally.cases());
        }
        print_row("inputs of up to three bytes", self.tally.cases() - before);
    }

    /// All inputs of four and five of the edges.
    fn edges(&mut self) {
        let before = self.tally.cases();
        for a in EDGES {
            for b in EDGES {
                for c in EDGES {
                    for d in EDGES {
                        self.input(&[a, b, c, d]);
                        for e in EDGES {
                            self.input(&[a, b, c, d, e]);
                        }
                    }
                }
            }
            self.progress.step(self.tally.cases());
        }
        print_row("inputs of four and five edges", self.tally.cases() - before);
    }

    /// Every scalar value, alone and before a byte.
    fn scalars(&mut self) {
        let before = self.tally.cases();
        for plane in 0..17 {
            for value in plane * 0x10000..(plane + 1) * 0x10000 {
                if let Some(c) = char::from_u32(value) {
                    let mut bytes = [0; 5];
                    let len = c.encode_utf8(&mut bytes).len();
                    self.input(&bytes[..len]);
                    bytes[len] = 0xbf;
                    self.input(&bytes[..=len]);
                }
            }
            self.progress.step(self.tally.cases());
        }
        print_row("scalar values", self.tally.cases() - before);
    }

    /// Texts of edges, of whole characters and of any bytes, with markers here and there.
    fn drawn(&mut self, texts: u32, longest: u32) {
        let before = self.tally.cases();
        let mut generator = Generator::new();
        for _ in 0..texts {
            let len = generator.below(longest + 1) as usize;
            let mut text = Vec::new();
            while text.len() < len {
                match generator.below(4) {
                    0 => text.push(generator.one_of(&EDGES)),
                    1 => text.push(generator.below(256) as u8),
                    2 => {
                        if let Some(c) = char::from_u32(generator.below(0x11_0000)) {
                            text.extend(c.encode_utf8(&mut [0; 4]).as_bytes());
                        }
                    }
                    _ => {
                        let end = generator.below(8).min(6) as usize;
                        text.extend(&MARKER[..end]);
                    }
                }
            }
            self.input(&text);
        }
        self.progress.step(self.tally.cases());
        print_row("drawn texts", self.tally.cases() - before);
    }

    /// Compares all that is said of an input.
    fn input(&mut self, bytes: &[u8]) {
        let right =
            character_is_right(bytes) && self.lossy_is_right(bytes) && marker_is_right(bytes);
        if right {
            self.tally.equal();
        } else {
            self.tally.unnamed(|| {
                println!("difference: {bytes:02x?}");
                println!("  expected {:#x}", expected(bytes));
                println!("  port     {:#x}", character(bytes));
            });
        }
    }

    /// The lossy text, in an output of its length, with bytes behind it, and in one that is too short.
    fn lossy_is_right(&mut self, bytes: &[u8]) -> bool {
        let text = String::from_utf8_lossy(bytes);
        let text = text.as_bytes();
        self.output.clear();
        self.output.resize(text.len() + BEHIND, BEFORE);
        let len = text.len() as u64;
        let kept = |bytes: &[u8]| bytes.iter().all(|byte| *byte == BEFORE);
        let short = text.len().saturating_sub(1);
        let refused = text.is_empty()
            || lossy(bytes, &mut self.output[..short]) == TOO_SHORT && kept(&self.output);
        refused
            && lossy(bytes, &mut self.output[..text.len()]) == len
            && &self.output[..text.len()] == text
            && kept(&self.output[text.len()..])
            && lossy(bytes, &mut self.output) == len
            && &self.output[..text.len()] == text
            && kept(&self.output[text.len()..])
    }
}

fn character_is_right(bytes: &[u8]) -> bool {
    character(bytes) == expected(bytes)
}

/// The first character as Rust reads it, as the port's number: a kind in the lowest byte, the length
/// in the next, the value in the upper half.
fn expected(bytes: &[u8]) -> u64 {
    let (valid, error) = match str::from_utf8(bytes) {
        Ok(text) => (text, None),
        Err(error) => {
            let valid = str::from_utf8(&bytes[..error.valid_up_to()]);
            (valid.expect("Rust says that it is valid"), Some(error))
        }
    };
    let (kind, len, value) = match (valid.chars().next(), error) {
        (Some(c), _) => (0, c.len_utf8(), c as u64),
        (None, None) => (3, 0, 0),
        (None, Some(error)) => match error.error_len() {
            Some(len) => (1, len, 0),
            None => (2, 0, 0),
        },
    };
    kind | (len as u64) << 8 | value << 32
}

fn marker_is_right(bytes: &[u8]) -> bool {
    let place = bytes.windows(MARKER.len()).position(|part| part == MARKER);
    marker(bytes) == place.map_or(u64::MAX, |place| place as u64)
}

fn character(bytes: &[u8]) -> u64 {
    // SAFETY: the pointer and the length are those of a slice that lives through the call.
    unsafe { cilvedroz_character(bytes.as_ptr(), bytes.len()) }
}

fn lossy(text: &[u8], out: &mut [u8]) -> u64 {
    // SAFETY: the pointers and lengths are those of slices that live through the call.
    unsafe { cilvedroz_lossy(text.as_ptr(), text.len(), out.as_mut_ptr(), out.len()) }
}

fn marker(text: &[u8]) -> u64 {
    // SAFETY: the pointer and the length are those of a slice that lives through the call.
    unsafe { cilvedroz_marker(text.as_ptr(), text.len()) }
}
