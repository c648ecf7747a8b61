//! Memory that is lent to the box, with something known on either side, so that writing beside it shows.

use crate::seen::Seen;
use std::fmt::Debug;
use std::hint::black_box;

/// How much stands on either side.
const BESIDE: usize = 4;

/// A word that no set of ours holds often.
const WORD: u64 = 0x5555_aaaa_5555_aaaa;

/// A byte that is seldom.
const BYTE: u8 = 0xa5;

/// A graph, a marking or a record, between words.
#[repr(C)]
pub struct Words<T> {
    front: [u64; BESIDE],
    pub content: T,
    back: [u64; BESIDE],
}

impl<T: PartialEq + Debug> Words<T> {
    pub fn new(content: T) -> Self {
        Words { front: [WORD; BESIDE], content, back: [WORD; BESIDE] }
    }

    /// What it holds after the call, and that nothing beside it was written. The compiler may take it that what was lent to be
    /// read is not written; it must be read again all the same.
    pub fn expect(mut self, seen: &mut Seen, what: &str, right: &T) {
        let Words { front, content, back } = black_box(&mut self);
        seen.expect(what, right, content);
        seen.expect(&format!("beside {what}"), &[WORD; 2 * BESIDE][..], &[*front, *back].concat());
    }
}

/// Bytes of any number, between others.
pub struct Bytes(Vec<u8>);

impl Bytes {
    pub fn new(content: &[u8]) -> Self {
        Bytes([&[BYTE; BESIDE], content, &[BYTE; BESIDE]].concat())
    }

    pub fn part(&mut self) -> &mut [u8] {
        let end = self.0.len() - BESIDE;
        &mut self.0[BESIDE..end]
    }

    pub fn array<const N: usize>(&mut self) -> &mut [u8; N] {
        self.part().try_into().expect("as many as were put in")
    }

    pub fn expect(mut self, seen: &mut Seen, what: &str, right: &[u8]) {
        let (front, rest) = black_box(&mut self.0).split_at(BESIDE);
        let (part, back) = rest.split_at(rest.len() - BESIDE);
        seen.expect(what, right, part);
        seen.expect(&format!("beside {what}"), &[BYTE; 2 * BESIDE][..], &[front, back].concat());
    }
}
