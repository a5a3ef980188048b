//! Stands in for the crate `memmem`: the place of the first match of some bytes in others.

pub trait Searcher {
    fn search_in(&self, haystack: &[u8]) -> Option<usize>;
}

pub struct TwoWaySearcher<'a>(&'a [u8]);

impl<'a> TwoWaySearcher<'a> {
    pub fn new(needle: &'a [u8]) -> Self {
        TwoWaySearcher(needle)
    }
}

impl Searcher for TwoWaySearcher<'_> {
    fn search_in(&self, haystack: &[u8]) -> Option<usize> {
        (0..=haystack.len()).find(|&start| haystack[start..].starts_with(self.0))
    }
}
