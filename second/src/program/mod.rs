//! The model as a program: the commands of `ulz`, and the lines that they print.

mod asking;
mod call;
mod commands;
mod ends;
mod entries;
mod files;
pub(crate) mod findings;
mod generate;
mod help;
mod journals;
mod lines;
mod markings;
mod may;
mod never;
mod records;
mod refusals;
mod sheets;
mod words;

pub use call::{call, complaint, Told};
pub use generate::generate;
#[cfg(test)]
pub use never::because;

use entries::AnyEntry;
use files::Input;
use lines::Lines;

/// An answer, or the lines of a refusal.
type Reply = Result<Answer, Lines>;

/// The lines of an answer, and the bytes for its file: the whole of it, or what is added to it.
struct Answer {
    lines: Lines,
    bytes: Vec<u8>,
    said: Said,
    /// The bytes are a record that is never, and are written only where that is asked for; otherwise these are the lines.
    never: Option<Lines>,
}

impl Answer {
    fn new(lines: Lines) -> Self {
        Answer { lines, bytes: Vec::new(), said: Said::Yes, never: None }
    }
}

/// What --status asks for.
#[derive(Clone, Copy)]
enum Said {
    Yes,
    No,
    Undecided,
}

/// What a command is given: a number, an entry or a person alone, how many markings a store is for, how many arms a mast
/// has, files that were read, and the marking to start from.
struct Given {
    n: u64,
    entry: AnyEntry,
    person: Option<u64>,
    markings: Option<u64>,
    arms: u64,
    files: Vec<Input>,
    from: Option<Input>,
}

impl Given {
    /// As many as the command takes.
    fn files<const COUNT: usize>(&self) -> &[Input; COUNT] {
        self.files[..].try_into().expect("the words were counted")
    }
}
