use std::ffi::{OsStr, OsString};
use std::path::{Path, PathBuf};

/// The words of a call, the file that is its standard input, the file that it writes if it is answered, and the journal that it
/// then adds to.
#[derive(Clone, Default)]
pub struct Call {
    pub words: Vec<OsString>,
    pub input: Option<PathBuf>,
    pub out: Option<String>,
    pub journal: Option<Journal>,
}

/// A journal that each program has for itself, as it lies there before the call, if it does, and the entry that is to be added.
#[derive(Clone)]
pub struct Journal {
    pub name: String,
    pub before: Option<Vec<u8>>,
    pub added: [u8; 3],
}

impl Journal {
    /// What lies there after the call: byte for byte the same, unless it is answered.
    pub fn after(&self, answered: bool) -> Option<Vec<u8>> {
        if !answered {
            return self.before.clone();
        }
        Some([self.before.as_deref().unwrap_or_default(), &self.added].concat())
    }
}

impl Call {
    /// From words with spaces between.
    pub fn new(words: &str) -> Self {
        Call { words: words.split_whitespace().map(OsString::from).collect(), ..Call::default() }
    }

    pub fn word(mut self, word: impl AsRef<OsStr>) -> Self {
        self.words.push(word.as_ref().into());
        self
    }

    pub fn out(mut self, name: &str) -> Self {
        self.out = Some(name.into());
        self.word(name)
    }

    pub fn journal(mut self, journal: Journal) -> Self {
        let name = journal.name.clone();
        self.journal = Some(journal);
        self.out(&name)
    }

    pub fn input(mut self, file: &Path) -> Self {
        self.input = Some(file.into());
        self
    }

    /// As it would be typed. A file of the program's own stands in its folder.
    pub fn typed(&self) -> String {
        let spelt = |word: &OsString| if word.is_empty() { "''".into() } else { word.to_string_lossy().into_owned() };
        let words: Vec<_> = self.words.iter().map(spelt).collect();
        let input = self.input.as_ref().map_or(String::new(), |file| format!(" < {}", file.display()));
        format!("ulz {}{input}", words.join(" "))
    }
}
