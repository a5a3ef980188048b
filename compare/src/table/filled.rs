//! A filling by its definition: entries go in one by one, up to the first that lacks nodes.

use super::rules::{Entry, Press};
use std::collections::{HashMap, HashSet};

/// The number of the refusal for want of nodes.
const TOO_FEW_NODES: u32 = 2;

pub struct Filled<'a> {
    /// The refusal's number, or 0.
    pub refused: u32,
    /// The nodes in use: the root, and one for each beginning of a stored key.
    pub used: u32,
    pub stored: HashMap<&'a [u8], &'a Press>,
}

pub fn fill(entries: &[Entry], nodes: u32) -> Filled<'_> {
    let mut beginnings = HashSet::new();
    let mut filled = Filled {
        refused: 0,
        used: 0,
        stored: HashMap::new(),
    };
    for entry in entries {
        let new: Vec<&[u8]> = (1..=entry.key.len())
            .map(|len| &entry.key[..len])
            .filter(|beginning| !beginnings.contains(beginning))
            .collect();
        let root = u32::from(filled.used == 0);
        if filled.used + root + new.len() as u32 > nodes {
            filled.refused = TOO_FEW_NODES;
            return filled;
        }
        filled.used += root + new.len() as u32;
        beginnings.extend(new);
        filled.stored.insert(&entry.key, &entry.press);
    }
    filled
}
