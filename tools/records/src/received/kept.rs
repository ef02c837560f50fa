//! The end of what was read, so that the text around a refusal can be shown.

use std::io::{self, Read};

/// As many octets before those that were read last are kept.
const BEFORE: usize = 1024;

/// A source of which the last octets that were read are kept.
pub struct Kept<R> {
    source: R,
    /// How many octets came before those that are kept.
    begin: usize,
    kept: Vec<u8>,
}

impl<R: Read> Kept<R> {
    pub fn new(source: R) -> Kept<R> {
        Kept {
            source,
            begin: 0,
            kept: Vec::new(),
        }
    }

    /// What is kept before a place, and from it on.
    pub fn around(&self, place: usize) -> (&[u8], &[u8]) {
        let within = place.saturating_sub(self.begin).min(self.kept.len());
        self.kept.split_at(within)
    }
}

impl<R: Read> Read for Kept<R> {
    fn read(&mut self, buffer: &mut [u8]) -> io::Result<usize> {
        let count = self.source.read(buffer)?;
        if count > 0 {
            let cut = self.kept.len().saturating_sub(BEFORE);
            self.kept.drain(..cut);
            self.begin += cut;
            self.kept.extend(buffer.iter().take(count));
        }
        Ok(count)
    }
}
