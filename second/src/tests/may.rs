//! The command `may` for one person.

use super::program::Folder;
use crate::cases::{jobs, Dice};
use crate::model::{self, members};
use std::collections::BTreeSet;

const REBOOTED: [&str; 3] = ["done: 0", "due: 1", "included: 0 1"];
const TO_DO: [&str; 2] = ["finished: no", "to do: 1"];

/// Each blocked step by what the person meets at the furthest.
#[test]
fn one_person_alone() {
    let folder = Folder::new("person");
    folder.put("empty", &[]);
    let climber = ["may: step 0, person 0, role 0", "may: step 1, person 0, role 0"];
    let no_role = "blocked: step 2, person 0 holds no role that it has";
    let rebooted = [&["entries: 1"], &REBOOTED[..]].concat();
    folder.told("may job.sheet reboot 0", 0, &[&rebooted[..], &climber, &[no_role], &TO_DO].concat());
    let desk = ["may: step 0, person 1, role 1", "blocked: step 1, person 1 holds no role that it has"];
    let excluded = [&rebooted[..], &desk, &["blocked: step 2, not included"], &TO_DO].concat();
    folder.told("may job.sheet reboot 1", 0, &excluded);
    folder.told("may job.sheet reboot 001", 0, &excluded);
    let start = ["entries: 0", "done: none", "due: none", "included: 0 1 2"];
    let waits = ["blocked: step 2, waits for 1", "finished: yes"];
    folder.told("may job.sheet empty 1", 0, &[&start[..], &desk, &waits].concat());
}

#[test]
fn a_person_who_is_not_there() {
    let folder = Folder::new("nobody");
    let unknown = |found: &str| {
        let found = format!("found: person {found}");
        let lines = ["refused: 11 no such person, step or role", &found, "expected: people 0 to 1"];
        [&lines[..], &REBOOTED].concat().iter().map(|line| line.to_string()).collect::<Vec<_>>()
    };
    let most = "18446744073709551615";
    for (given, said) in [("2", "2"), ("255", "255"), ("256", "256"), (most, most), ("99999999999999999999", most)] {
        let lines = unknown(said);
        let lines: Vec<_> = lines.iter().map(String::as_str).collect();
        folder.told(&format!("may job.sheet reboot {given}"), 1, &lines);
    }
    let excluded = ["refused: 14 the step is not included", "file: late", "found: step 2, excluded"];
    let at = ["expected: included", "entry 1: person 1, step 2, role 1"];
    folder.told("may job.sheet late 256", 1, &[&excluded[..], &at, &REBOOTED].concat());
    folder.put("torn", &[0; 4]);
    let length = "refused: 7 the bytes of the journal are no multiple of 3, or too many";
    let torn = [length, "file: torn", "found: 4 bytes", "expected: a multiple of 3, at most 65535"];
    folder.told("may job.sheet torn 256", 1, &torn);
    folder.put("beyond", &[&[8][..], &[0; 23]].concat());
    let outside = "refused: 8 the marking has a step that the graph does not have";
    let beyond = [outside, "file: beyond", "found: steps 3 in done", "expected: steps 0 to 2"];
    folder.told("may job.sheet reboot 256 --from beyond", 1, &beyond);
}

/// A full journal is none to be added to, and yet one to be asked after.
#[test]
fn after_a_full_journal() {
    let folder = Folder::new("full");
    folder.put("full", &[0; 65_535]);
    let told = folder.call("may job.sheet full 1");
    assert!(told.status == 0 && told.out.starts_with("entries: 21845\n"), "{}", told.out);
    assert_eq!(folder.call("may job.sheet full 2").status, 1);
}

#[test]
fn wrong_use() {
    let folder = Folder::new("may-use");
    let complained = |words: &str, why: &str| {
        folder.told(words, 2, &[]);
        assert_eq!(folder.call(words).err, format!("second: {why}\n"), "{words}");
    };
    let number = ": a person, step or role is a number, digits 0 to 9 alone";
    complained("may job.sheet reboot 0x", &format!("0x{number}"));
    complained("may not-there reboot 1.5", &format!("1.5{number}"));
    complained("may job.sheet reboot -1", "-1: unknown option");
    complained("may job.sheet reboot 0 0", "usage: second may SHEET JOURNAL [PERSON] [--from MARKING]");
    complained("may job.sheet", "usage: second may SHEET JOURNAL [PERSON] [--from MARKING]");
    complained("may job.sheet reboot 0 --force", "--force: 'second may' takes no such option");
}

/// One person's lines are those of everyone that name this person; their steps are those that are allowed to this
/// person, and the other steps are blocked.
#[test]
fn a_person_among_everyone() {
    let folder = Folder::new("among");
    folder.put("empty", &[]);
    let mut seen = [0; 2];
    for case in 0..60 {
        let job = jobs::make(&mut Dice::new(19, case), case);
        let Ok((g, m)) = model::sheet::read(&job.sheet) else { continue };
        if g.steps * g.people * g.roles > 2_000 {
            continue;
        }
        folder.put("any.sheet", &job.sheet);
        let everyone = folder.call("may any.sheet empty").out;
        for person in 0..g.people {
            let alone = folder.call(&format!("may any.sheet empty {person}")).out;
            let named = |line: &&str| line.starts_with("may: ") && line.contains(&format!(", person {person}, "));
            let [of_everyone, of_person] =
                [&everyone, &alone].map(|told| told.lines().filter(named).collect::<Vec<_>>());
            assert_eq!(of_everyone, of_person, "case {case}, person {person}");
            let steps = |key: &str| -> BTreeSet<u64> {
                let steps = alone.lines().filter_map(|line| line.strip_prefix(key)?.split(',').next()?.parse().ok());
                steps.collect()
            };
            let (may, blocked) = (steps("may: step "), steps("blocked: step "));
            assert_eq!(may, members(model::allowed_to(&g, m.write(), person).steps), "case {case}, person {person}");
            assert_eq!(blocked, &(0..g.steps).collect() - &may, "case {case}, person {person}");
            seen[usize::from(may.is_empty())] += 1;
        }
    }
    assert!(seen.iter().all(|times| *times > 20), "{seen:?}");
}
