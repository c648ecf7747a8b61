//! The comparison of two programs must not comfort falsely.

use crate::alike::call::{Call, Journal};
use crate::alike::{report::Came, report::Report, side::Side, Jobs};
use std::fs;
use std::os::unix::fs::PermissionsExt;
use std::path::PathBuf;
use std::sync::Mutex;

/// A folder of its own for a test.
struct Folder(PathBuf);

impl Folder {
    fn new(name: &str) -> Self {
        let folder = std::env::temp_dir().join(format!("alike-{}-{name}", std::process::id()));
        fs::create_dir_all(&folder).expect("a folder");
        Folder(folder)
    }

    fn put(&self, name: &str, text: &str) -> PathBuf {
        let file = self.0.join(name);
        fs::write(&file, text).expect("a file");
        file
    }

    fn found(&self) -> Result<(Vec<String>, Vec<String>), String> {
        let found = Jobs::Folder(&self.0).find()?;
        let pairs = found
            .jobs
            .iter()
            .flat_map(|job| job.journals.iter().map(|journal| format!("{} {}", job.sheet.shown, journal.shown)));
        Ok((pairs.collect(), found.unused))
    }

    fn listed(&self, lines: &str) -> Result<Vec<usize>, String> {
        let found = Jobs::Listed(&self.put("list", lines)).find()?;
        Ok(found.jobs.iter().map(|job| job.journals.len()).collect())
    }
}

impl Drop for Folder {
    fn drop(&mut self) {
        let _ = fs::remove_dir_all(&self.0);
    }
}

#[test]
fn files_are_used_or_named() {
    let folder = Folder::new("files");
    assert!(folder.found().is_err(), "no sheet");
    for name in ["a.1.journal", "a.sheet", "b.1.journal", "readme"] {
        folder.put(name, "");
    }
    let named = |names: &[&str]| names.iter().map(|name| name.to_string()).collect::<Vec<_>>();
    assert_eq!(folder.found(), Ok((named(&["a.sheet a.1.journal"]), named(&["b.1.journal", "readme"]))));
}

#[test]
fn a_list_is_read_or_refused() {
    let folder = Folder::new("list");
    let [sheet, journal] = ["sheet", "a journal"].map(|name| folder.put(name, "").display().to_string());
    assert_eq!(folder.listed(&format!("# old\n\n{sheet}\t{journal}\n{sheet} {sheet}\n")), Ok(vec![2]));
    for lines in ["", "# none\n", "one\n", "one two three\n", &format!("{sheet} not-there\n")] {
        assert!(folder.listed(lines).is_err(), "{lines}");
    }
}

/// A program cannot be started while a child of another thread still has it open, as it was when it was written.
static STARTING: Mutex<()> = Mutex::new(());

/// What comes of two programs of which each is a line of shell.
fn came(name: &str, lines: [&str; 2]) -> Came {
    came_of(Call::new("check any"), name, lines)
}

fn came_of(call: Call, name: &str, lines: [&str; 2]) -> Came {
    let _alone = STARTING.lock();
    let folder = Folder::new(name);
    let side = |i: usize, name| {
        let program = folder.put(&format!("program-{name}"), &format!("#!/bin/sh\n{}\n", lines[i]));
        fs::set_permissions(&program, fs::Permissions::from_mode(0o755)).expect("they can be set");
        Side::new(name, &program, &folder.0).expect("a folder")
    };
    let mut report = Report::new([side(0, "ulz"), side(1, "second")]);
    let came = report.ask(call).expect("they run");
    assert_eq!(report.status() == 1, came == Came::Different, "{lines:?}");
    came
}

#[test]
fn every_difference_is_seen() {
    let same = ["echo sheet: ok"; 2];
    assert!(came("same", same) == Came::Answered("sheet: ok".into()));
    let complaints = ["echo ulz: one >&2; exit 2", "echo second: other >&2; exit 2"];
    assert!(came("complaints", complaints) == Came::Failed);
    let refused = ["echo refused: 5 words; exit 1"; 2];
    assert!(came("refused", refused) == Came::Refused(5, None));
    let undecided = ["echo entries: 0; echo can end: undecided; exit 2"; 2];
    assert!(came("undecided", undecided) == Came::Answered("entries: 0".into()));
    for (i, lines) in [
        ["echo can end: undecided; exit 2", "echo can end: undecided"],
        ["echo can end: undecided; echo ulz: but >&2; exit 2", "echo can end: undecided; echo second: but >&2; exit 2"],
        ["echo can end: no; exit 2", "echo can end: no; exit 2"],
        ["echo sheet: ok", "echo sheet: ok; exit 1"],
        ["echo sheet: ok", "echo sheet: no"],
        ["echo refused: 5 words", "echo refused: 5 words; exit 1"],
        ["echo sheet: ok; echo ulz: but >&2", "echo sheet: ok"],
        ["exit 2", "exit 2"],
        ["kill -9 $$", "kill -9 $$"],
        ["echo second: one >&2; exit 2", "echo second: one >&2; exit 2"],
        ["echo ulz: one >&2; echo ulz: two >&2; exit 2", "echo second: one >&2; exit 2"],
        ["echo ulz: a: a marking has 24 bytes >&2; exit 2", "echo second: b: a marking has 24 bytes >&2; exit 2"],
    ]
    .into_iter()
    .enumerate()
    {
        assert!(came(&format!("different-{i}"), lines) == Came::Different, "{lines:?}");
    }
}

/// Both do the same, and yet it shows where a journal is not what it has to be.
#[test]
fn a_journal_is_what_was_there_and_the_entry_that_was_taken() {
    let refused = "echo refused: 14 words; exit 1";
    let add = "printf abc >> own; echo taken: yes";
    let journal = |before: Option<&[u8]>| Journal { name: "own".into(), before: before.map(Vec::from), added: *b"abc" };
    let came = |name: &str, before: Option<&[u8]>, line: &str| {
        came_of(Call::new("take any").journal(journal(before)), name, [line; 2])
    };
    for (i, before) in [None, Some(&b""[..]), Some(b"012")].into_iter().enumerate() {
        assert!(came(&format!("added-{i}"), before, add) == Came::Answered("taken: yes".into()), "{before:?}");
        assert!(came(&format!("left-{i}"), before, refused) == Came::Refused(14, None), "{before:?}");
        for (k, line) in [
            "echo taken: yes".into(),
            format!("printf a >> own; {refused}"),
            format!("printf abc >> own; {refused}"),
            "printf abd >> own; echo taken: yes".into(),
            "printf abcabc >> own; echo taken: yes".into(),
            "printf xabc > own; echo taken: yes".into(),
            "rm -f own; echo taken: yes".into(),
            "printf abc >> own; echo ulz: the disk is full >&2; exit 2".into(),
        ]
        .into_iter()
        .enumerate()
        {
            assert!(came(&format!("wrong-{i}-{k}"), before, &line) == Came::Different, "{before:?} {line}");
        }
    }
}
