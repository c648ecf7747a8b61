use std::fmt;
use std::ops::Deref;

/// Bytes of any number: a journal, a record or a sheet.
#[derive(Clone, Default, PartialEq, Eq)]
pub struct Bytes(pub Vec<u8>);

impl Deref for Bytes {
    type Target = [u8];

    fn deref(&self) -> &[u8] {
        &self.0
    }
}

/// The first bytes and how many there are: the case can be made again, so the rest need not be read.
impl fmt::Debug for Bytes {
    fn fmt(&self, f: &mut fmt::Formatter<'_>) -> fmt::Result {
        const SHOWN: usize = 120;
        write!(f, "{} bytes", self.len())?;
        self.iter().take(SHOWN).try_for_each(|byte| write!(f, " {byte:02x}"))?;
        if self.len() > SHOWN {
            write!(f, " ...")?;
        }
        Ok(())
    }
}
