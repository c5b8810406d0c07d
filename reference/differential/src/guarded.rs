//! Buffers between guard bytes, at places of any alignment.

use checker::driver::Buffers;
use lean::{Lent, Shared};

/// Guard bytes on each side, at least.
const GUARD: usize = 64;

/// A stretch of bytes between guards.
pub struct Guarded {
    bytes: Vec<u8>,
    start: usize,
    length: usize,
}

/// The guard byte of a place.
fn guard(place: usize) -> u8 {
    (place as u8).wrapping_mul(29) ^ 0xA5
}

impl Guarded {
    /// The contents behind `GUARD + shift` guard bytes.
    pub fn new(contents: &[u8], shift: usize) -> Guarded {
        let start = GUARD + shift;
        let size = start + contents.len() + GUARD;
        let mut bytes: Vec<u8> = (0..start).map(guard).collect();
        bytes.extend(contents);
        bytes.extend((bytes.len()..size).map(guard));
        Guarded {
            bytes,
            start,
            length: contents.len(),
        }
    }

    pub fn contents(&self) -> &[u8] {
        &self.bytes[self.start..self.start + self.length]
    }

    pub fn contents_mut(&mut self) -> &mut [u8] {
        &mut self.bytes[self.start..self.start + self.length]
    }

    /// The first guard byte that is changed, counted from the contents' start.
    pub fn broken(&self) -> Option<isize> {
        let mut places = (0..self.start).chain(self.start + self.length..self.bytes.len());
        let place = places.find(|&place| self.bytes[place] != guard(place))?;
        Some(place as isize - self.start as isize)
    }
}

/// The five buffers of a call.
pub struct Five(pub [Guarded; 5]);

impl Five {
    /// Copies of the buffers, each shifted by another number of bytes.
    pub fn new(buffers: &Buffers) -> Five {
        let mut shift = 0;
        Five(buffers.0.each_ref().map(|contents| {
            shift += 3;
            Guarded::new(contents, shift)
        }))
    }

    pub fn lent(&mut self) -> Lent<'_> {
        self.0.each_mut().map(Guarded::contents_mut)
    }

    pub fn shared(&self) -> Shared<'_> {
        self.0.each_ref().map(Guarded::contents)
    }
}

#[cfg(test)]
mod tests {
    use super::*;

    #[test]
    fn guards_notice_a_change() {
        for (place, wanted) in [(GUARD + 4, Some(-1)), (GUARD + 8, Some(3)), (0, Some(-69))] {
            let mut guarded = Guarded::new(&[7, 8, 9], 5);
            assert_eq!(guarded.broken(), None);
            guarded.bytes[place] ^= 1;
            assert_eq!(guarded.broken(), wanted);
        }
        let mut guarded = Guarded::new(&[7, 8, 9], 5);
        guarded.contents_mut().fill(0);
        assert_eq!(guarded.broken(), None);
    }
}
