//! Calls into the port.

use super::original::static_name;
use super::rules::Press;

/// The bytes of a record.
const RECORD: usize = 8;

unsafe extern "C" {
    fn cilvedroz_table(nodes: u32, out: *mut u8, out_len: usize) -> u32;
    fn cilvedroz_table_key(rule: u32, place: u32, out: *mut u8, out_len: usize) -> u32;
}

/// What the port stores of the table's keys on so many nodes.
pub struct Built {
    pub refused: u32,
    pub used: u32,
    records: Vec<u8>,
}

impl Built {
    /// What is stored under the key of this number in the order of filling.
    pub fn press(&self, number: usize) -> Option<Press> {
        let [stored, place, low, high, a, b, c, d] = self.records[number * RECORD..][..RECORD]
            .try_into()
            .unwrap();
        (stored == 1).then(|| Press {
            name: static_name(u32::from(place)),
            modifiers: u16::from_le_bytes([low, high]),
            number: u32::from_le_bytes([a, b, c, d]),
        })
    }
}

/// Builds the table on so many nodes, and asks for the first `keys` keys.
pub fn build(nodes: u32, keys: usize) -> Built {
    let mut records = vec![0xee; keys * RECORD];
    // SAFETY: the pointer and the length are those of a vector that lives through the call.
    let said = unsafe { cilvedroz_table(nodes, records.as_mut_ptr(), records.len()) };
    Built {
        refused: said >> 16,
        used: said & 0xffff,
        records,
    }
}

/// The key at a place of a rule, both from 1; none where there is no such place.
pub fn key(rule: u32, place: u32) -> Option<Vec<u8>> {
    let mut out = [0; 64];
    // SAFETY: the pointer and the length are those of an array that lives through the call.
    let len = unsafe { cilvedroz_table_key(rule - 1, place - 1, out.as_mut_ptr(), out.len()) };
    (len > 0).then(|| out[..len as usize].to_vec())
}
