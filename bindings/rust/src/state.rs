use std::fmt;

/// Three sets of steps: Ex, Re, In.
#[repr(C)]
#[derive(Clone, Copy, Default, PartialEq, Eq)]
pub struct Marking {
    pub done: u64,
    pub due: u64,
    pub included: u64,
}

#[repr(C)]
#[derive(Clone, Copy, Default, PartialEq, Eq, Debug)]
pub struct Entry {
    pub person: u8,
    pub step: u8,
    pub role: u8,
}

/// Where the tracker is. A flag above 0 is up.
#[repr(C)]
#[derive(Clone, Copy, Default, PartialEq, Eq, Debug)]
pub struct Track {
    pub marking: Marking,
    pub rank: u64,
    pub flag: u64,
}

impl Marking {
    pub const fn new(done: u64, due: u64, included: u64) -> Self {
        Marking { done, due, included }
    }

    /// Ex, Re and In, 8 bytes each, the lowest byte first.
    pub fn bytes(&self) -> Vec<u8> {
        [self.done, self.due, self.included].iter().flat_map(|set| set.to_le_bytes()).collect()
    }
}

/// The steps of a set, in ascending order.
pub fn steps(set: u64) -> impl Iterator<Item = u64> {
    (0..64).filter(move |step| set >> step & 1 == 1)
}

impl fmt::Debug for Marking {
    fn fmt(&self, f: &mut fmt::Formatter<'_>) -> fmt::Result {
        write!(f, "Ex {:x} Re {:x} In {:x}", self.done, self.due, self.included)
    }
}
