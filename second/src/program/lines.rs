//! What an answer looks like: lines `key: value`.

use super::{
    entries::AnyEntry,
    files::{shown, Input},
    findings::Finding,
    refusals,
};
use crate::data::{Record, Track};
use crate::model::{members, Marking};
use std::fmt::Display;
use std::io::Write;

const SETS: [&str; 8] = [
    "NeedIn, must be included",
    "NeedEx, must have been done",
    "NeedOutOrEx, must be excluded or done",
    "Done, is done",
    "DueSet, becomes due",
    "DueClear, is due no more",
    "InSet, becomes included",
    "InClear, becomes excluded",
];

#[derive(Clone, Default, PartialEq, Eq, Debug)]
pub struct Lines(pub Vec<u8>);

impl Lines {
    pub fn say(mut self, key: impl Display, value: impl Display) -> Self {
        writeln!(self.0, "{key}: {value}").expect("a vector has room");
        self
    }

    /// A refusal's own line.
    pub fn refused(number: u64) -> Self {
        Lines::default().say("refused", format_args!("{number} {}", refusals::words(number)))
    }

    /// A refusal for what a file holds: its line, the file, and what made the number hold.
    pub fn refused_for(number: u64, file: &Input, finding: Option<Finding>) -> Self {
        let Lines(refused) = Lines::refused(number);
        Lines([&refused[..], b"file: ", &shown(&file.name), b"\n"].concat()).finding(finding)
    }

    /// What was found, and what was expected there.
    pub fn finding(self, finding: Option<Finding>) -> Self {
        match finding {
            Some(Finding { found, expected }) => self.say("found", found).say("expected", expected),
            None => self,
        }
    }

    pub fn entry(self, index: u64, entry: impl Into<AnyEntry>) -> Self {
        self.say(format_args!("entry {index}"), entry.into())
    }

    /// The entry that was refused with this number, and every step that it waits for where that is the reason.
    pub fn refused_entry(self, index: u64, entry: impl Into<AnyEntry>, number: u64, waiting: u64) -> Self {
        let lines = self.entry(index, entry);
        if number == 15 {
            return lines.say("waits for", set(&members(waiting)));
        }
        lines
    }

    pub fn marking(self, m: &Marking) -> Self {
        self.say("done", set(&m.done)).say("due", set(&m.due)).say("included", set(&m.included))
    }

    pub fn ending(self, m: &Marking) -> Self {
        let to_do = m.pending();
        if to_do.is_empty() {
            return self.say("finished", "yes");
        }
        self.say("finished", "no").say("to do", set(&to_do))
    }

    /// Never, then the eight sets.
    pub fn record(self, record: &Record) -> Self {
        let [never, sets @ ..] = record.words();
        let lines = self.say("never", if never == 0 { "no" } else { "yes" });
        SETS.iter().zip(sets).fold(lines, |lines, (name, word)| lines.say(name, set(&members(word))))
    }
}

/// The numbers in ascending order with a space between, or `none`.
pub fn set<'a>(members: impl IntoIterator<Item = &'a u64>) -> String {
    let numbers: Vec<String> = members.into_iter().map(u64::to_string).collect();
    if numbers.is_empty() {
        return "none".into();
    }
    numbers.join(" ")
}

pub fn rank_and_flag(track: Track) -> String {
    format!("rank {}, flag {}", track.rank, flag(track))
}

pub fn flag(track: Track) -> &'static str {
    if track.flag == 0 {
        "down"
    } else {
        "up"
    }
}
