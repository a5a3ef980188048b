//! What is stored in a map: the original, and the number of nodes that the port takes for it.

use super::original::Original;
use super::record::Answer;
use std::collections::HashSet;

#[derive(Clone, Default)]
pub struct Stored {
    pub original: Original,
    any: bool,
    /// The beginnings of the stored keys, but the empty one.
    beginnings: HashSet<Vec<u8>>,
}

impl Stored {
    pub fn insert(&mut self, key: &[u8], value: u32) -> Answer {
        self.any = true;
        self.beginnings.extend(beginnings(key).map(<[u8]>::to_vec));
        self.original.insert(key, value)
    }

    pub fn is_empty(&self) -> bool {
        !self.any
    }

    /// The nodes that the port has in use: the root, and one for each different beginning of the
    /// stored keys but the empty one; none where nothing is stored.
    pub fn nodes(&self) -> usize {
        usize::from(self.any) + self.beginnings.len()
    }

    /// The same, once this key is stored too.
    pub fn nodes_with(&self, key: &[u8]) -> usize {
        let new = beginnings(key).filter(|beginning| !self.beginnings.contains(*beginning));
        1 + self.beginnings.len() + new.count()
    }
}

fn beginnings(key: &[u8]) -> impl Iterator<Item = &[u8]> {
    (1..=key.len()).map(|len| &key[..len])
}
