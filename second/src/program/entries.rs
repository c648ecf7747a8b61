use crate::data::Entry;
use std::fmt;

/// An entry whose numbers have any size, as the words of a call may name it.
#[derive(Clone, Copy, Default)]
pub struct AnyEntry {
    pub person: u64,
    pub step: u64,
    pub role: u64,
}

impl AnyEntry {
    /// What the rules are asked. No count reaches the largest byte, so that a number beyond all bytes is as unknown as that.
    pub fn stored(self) -> Entry {
        let [person, step, role] =
            [self.person, self.step, self.role].map(|number| u8::try_from(number).unwrap_or(u8::MAX));
        Entry { person, step, role }
    }
}

impl From<Entry> for AnyEntry {
    fn from(Entry { person, step, role }: Entry) -> Self {
        AnyEntry { person: person.into(), step: step.into(), role: role.into() }
    }
}

impl fmt::Display for AnyEntry {
    fn fmt(&self, f: &mut fmt::Formatter<'_>) -> fmt::Result {
        write!(f, "person {}, step {}, role {}", self.person, self.step, self.role)
    }
}
