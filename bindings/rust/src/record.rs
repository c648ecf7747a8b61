use std::fmt;

/// What a journal folds to: the never mark and eight sets of steps.
#[repr(C)]
#[derive(Clone, Copy, Default, PartialEq, Eq)]
pub struct Record {
    pub never: u64,
    pub need_in: u64,
    pub need_ex: u64,
    pub need_out_or_ex: u64,
    pub done: u64,
    pub due_set: u64,
    pub due_clear: u64,
    pub in_set: u64,
    pub in_clear: u64,
}

impl Record {
    /// Never, then the eight sets.
    pub const fn new(words: [u64; 9]) -> Self {
        let [never, need_in, need_ex, need_out_or_ex, done, due_set, due_clear, in_set, in_clear] = words;
        Record { never, need_in, need_ex, need_out_or_ex, done, due_set, due_clear, in_set, in_clear }
    }

    pub const fn words(&self) -> [u64; 9] {
        let Record { never, need_in, need_ex, need_out_or_ex, done, due_set, due_clear, in_set, in_clear } = *self;
        [never, need_in, need_ex, need_out_or_ex, done, due_set, due_clear, in_set, in_clear]
    }
}

impl fmt::Debug for Record {
    fn fmt(&self, f: &mut fmt::Formatter<'_>) -> fmt::Result {
        let [never, sets @ ..] = self.words();
        write!(f, "never {never} {sets:x?}")
    }
}
