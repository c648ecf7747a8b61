//! The commands `ask` and `take`: an entry after a journal.

use super::{program::Folder, written};
use crate::cases::sheets;
use crate::data::Marking;
use crate::sample::{self, CHECK, REBOOT, START};
use std::fs;

const REBOOTED: [&str; 3] = ["done: 0", "due: 1", "included: 0 1"];
const LENGTH: &str = "refused: 7 the bytes of the journal are no multiple of 3, or too many";

impl Folder {
    fn bytes(&self, name: &str) -> Option<Vec<u8>> {
        fs::read(self.0.join(name)).ok()
    }

    /// Both refuse with these lines, and the journal stays as it was.
    fn both_refuse(&self, words: &str, lines: &[&str]) {
        let journal = words.split(' ').nth(1).expect("a journal");
        let before = self.bytes(journal);
        self.told(&format!("ask {words}"), 1, lines);
        self.told(&format!("take {words}"), 1, lines);
        assert_eq!(self.bytes(journal), before, "{words}");
    }
}

#[test]
fn what_is_allowed_is_added() {
    let folder = Folder::new("allowed");
    let entry = "entry 1: person 0, step 1, role 0";
    folder.told("ask job.sheet reboot 0 1 0", 0, &["allowed: yes", entry]);
    assert_eq!(folder.bytes("reboot"), Some(written(&[REBOOT])), "asking takes nothing");
    let checked = ["done: 0 1", "due: none", "included: 0 1 2", "finished: yes"];
    folder.told("take job.sheet reboot 0 1 0", 0, &[&["taken: yes", entry], &checked[..]].concat());
    assert_eq!(folder.bytes("reboot"), Some(written(&[REBOOT, CHECK])));
    let again = ["taken: yes", "entry 2: person 0, step 0, role 0", "done: 0 1", "due: 1", "included: 0 1"];
    folder.told("take job.sheet reboot 0 0 0", 0, &[&again[..], &["finished: no", "to do: 1"]].concat());
    assert_eq!(folder.bytes("reboot"), Some(written(&[REBOOT, CHECK, REBOOT])));
}

#[test]
fn what_is_refused_leaves_the_journal() {
    let folder = Folder::new("refused");
    folder.put("empty", &[]);
    let refused = |words: &str, number: &str, found: &str, expected: &str, entry: &str, at: [&str; 3]| {
        let [found, expected] = [format!("found: {found}"), format!("expected: {expected}")];
        folder.both_refuse(words, &[&[number, &found, &expected, entry], &at[..]].concat());
    };
    let unknown = "refused: 11 no such person, step or role";
    let people = ["2", "256", "300", "18446744073709551615", "18446744073709551616", "99999999999999999999"];
    for (given, said) in people.iter().zip(["2", "256", "300", people[3], people[3], people[3]]) {
        let (found, entry) = (format!("person {said}"), format!("entry 1: person {said}, step 0, role 0"));
        refused(&format!("job.sheet reboot {given} 0 0"), unknown, &found, "people 0 to 1", &entry, REBOOTED);
    }
    let entry = "entry 1: person 0, step 256, role 0";
    refused("job.sheet reboot 0 256 0", unknown, "step 256", "steps 0 to 2", entry, REBOOTED);
    let entry = "entry 1: person 0, step 0, role 258";
    refused("job.sheet reboot 0 0 258", unknown, "role 258", "roles 0 to 1", entry, REBOOTED);
    let (number, entry) = ("refused: 12 the person does not hold this role", "entry 1: person 1, step 1, role 0");
    refused("job.sheet reboot 1 1 0", number, "person 1, roles 1", "role 0 among them", entry, REBOOTED);
    let (number, entry) =
        ("refused: 13 the step's action does not have this role", "entry 1: person 1, step 1, role 1");
    refused("job.sheet reboot 01 1 001", number, "step 1, action 1, roles 0", "role 1 among them", entry, REBOOTED);
    let (number, entry) = ("refused: 14 the step is not included", "entry 1: person 1, step 2, role 1");
    refused("job.sheet reboot 1 2 1", number, "step 2, excluded", "included", entry, REBOOTED);
    let waits = [
        "refused: 15 the step waits for steps that are not done",
        "found: steps 1, included and not done",
        "expected: done before step 2",
        "entry 0: person 1, step 2, role 1",
        "waits for: 1",
        "done: none",
        "due: none",
        "included: 0 1 2",
    ];
    folder.both_refuse("job.sheet empty 1 2 1", &waits);
    folder.told("take job.sheet not-there 1 2 1", 1, &waits);
    assert_eq!(folder.bytes("not-there"), None, "a refused entry makes no journal");
}

#[test]
fn a_journal_that_no_entry_can_follow() {
    let folder = Folder::new("journals");
    let excluded = ["refused: 14 the step is not included", "file: late", "found: step 2, excluded"];
    let at = ["expected: included", "entry 1: person 1, step 2, role 1"];
    folder.both_refuse("job.sheet late 300 0 0", &[&excluded[..], &at, &REBOOTED].concat());
    folder.put("torn", &[0; 4]);
    let torn = [LENGTH, "file: torn", "found: 4 bytes", "expected: a multiple of 3, at most 65535"];
    folder.both_refuse("job.sheet torn 0 0 0", &torn);
    folder.put("full", &[0; 65_535]);
    let full = [
        LENGTH,
        "file: full",
        "found: 65535 bytes, a full journal",
        "expected: at most 65532, so that an entry can be added",
    ];
    folder.both_refuse("job.sheet full 300 0 0", &full);
    folder.put("beyond", &[&[8][..], &[0; 23]].concat());
    folder.both_refuse("job.sheet full 0 0 0 --from beyond", &full);
    let refused = "refused: 8 the marking has a step that the graph does not have";
    let lines = [refused, "file: beyond", "found: steps 3 in done", "expected: steps 0 to 2"];
    folder.both_refuse("job.sheet late 0 0 0 --from beyond", &lines);
    folder.put("last", &[0; 65_532]);
    assert_eq!(folder.call("take job.sheet last 0 0 0").status, 0);
    assert_eq!(folder.bytes("last"), Some(vec![0; 65_535]), "the last entry that there is room for");
    folder.put("long", &[0; 65_536]);
    let long = [LENGTH, "file: long", "found: 65536 bytes or more", "expected: a multiple of 3, at most 65535"];
    folder.both_refuse("job.sheet long 0 0 0", &long);
}

#[test]
fn a_journal_that_is_not_there() {
    let folder = Folder::new("missing");
    folder.told("ask job.sheet not-there 0 0 0", 2, &[]);
    let made = ["taken: yes", "entry 0: person 0, step 0, role 0"];
    folder.told("take job.sheet not-there 0 0 0", 0, &[&made[..], &REBOOTED, &["finished: no", "to do: 1"]].concat());
    assert_eq!(folder.bytes("not-there"), Some(written(&[REBOOT])));
    assert_eq!(folder.call("run job.sheet reboot rebooted").status, 0);
    let from = ["taken: yes", "entry 0: person 0, step 1, role 0", "done: 0 1", "due: none", "included: 0 1 2"];
    folder.told("take job.sheet new 0 1 0 --from rebooted", 0, &[&from[..], &["finished: yes"]].concat());
    assert_eq!(folder.bytes("new"), Some(written(&[CHECK])));
}

#[test]
fn wrong_use() {
    let folder = Folder::new("asking-use");
    folder.put("marking", &START.bytes());
    fs::create_dir_all(folder.0.join("folder")).expect("a folder");
    let complained = |words: &str, why: &str| {
        folder.told(words, 2, &[]);
        let err = folder.call(words).err.replace(&format!("{}/", folder.0.display()), "");
        assert_eq!(err, format!("second: {why}\n"), "{words}");
    };
    let number = |word: &str| format!("{word}: a person, step or role is a number, digits 0 to 9 alone");
    for command in ["ask", "take"] {
        complained(&format!("{command} job.sheet reboot 0 0x 0"), &number("0x"));
        complained(
            &format!("{command} job.sheet reboot 0 0 --force 0"),
            &format!("--force: 'second {command}' takes no such option"),
        );
        complained(
            &format!("{command} job.sheet reboot 0 0"),
            &format!("usage: second {command} SHEET JOURNAL PERSON STEP ROLE [--from MARKING]"),
        );
        folder.told(&format!("{command} job.sheet reboot 0 0 0 0"), 2, &[]);
        folder.told(&format!("{command} not-there reboot 0 0 0"), 2, &[]);
        folder.told(&format!("{command} job.sheet folder 0 0 0"), 2, &[]);
        folder.told(&format!("{command} - - 0 0 0"), 2, &[]);
    }
    complained("take job.sheet - 0 0 0", "-: the journal is a file, and has to be named");
    complained("take job.sheet folder 0 0 0", "folder: is there and is no ordinary file");
    let read = ": is read by this call, and is not written over";
    complained("take job.sheet job.sheet 0 0 0", &format!("job.sheet{read}"));
    complained("take job.sheet marking 0 0 0 --from marking", &format!("marking{read}"));
    complained("take job.sheet folder/none/journal 0 0 0", "folder/none/journal: No such file or directory");
    assert_eq!(folder.bytes("reboot"), Some(written(&[REBOOT])));
}

/// The reason that is given where nobody may take a step is the one that those best suited meet.
#[test]
fn why_nobody_may() {
    let folder = Folder::new("blocked");
    folder.put("empty", &[]);
    let mut g = sample::graph();
    // Step 0 has no role that anyone holds and is excluded; 1 is excluded; 2 waits; and so does 3, which is excluded too.
    (g.steps, g.roles, g.actions, g.labels[3]) = (4, 3, 4, 3);
    g.allows[..4].copy_from_slice(&[0b100, 0b001, 0b010, 0b010]);
    (g.conditions[2], g.conditions[3]) = (0b100, 0b100);
    folder.put("any.sheet", &sheets::written(&g, Marking::new(0, 0, 0b100)));
    let blocked = [
        "blocked: step 0, nobody holds a role that it has",
        "blocked: step 1, not included",
        "blocked: step 2, waits for 2",
        "blocked: step 3, not included",
    ];
    let start = ["entries: 0", "done: none", "due: none", "included: 2"];
    folder.told("may any.sheet empty", 0, &[&start[..], &blocked, &["finished: yes"]].concat());
}
