//! The command `ends`.

use super::program::Folder;
use crate::cases::{jobs, sheets, Dice};
use crate::data::{Ends, Graph, Marking, NONE, REACHABLE};
use crate::model;
use crate::sample::{self, REBOOTED, START};

const AT: [&str; 4] = ["entries: 1", "done: 0", "due: 1", "included: 0 1"];

#[test]
fn yes_no_and_undecided() {
    let folder = Folder::new("ends");
    let yes = [&AT[..], &["can end: yes", "fewest entries: 1", "looked at: 2"]].concat();
    for words in ["", " 2", " 002", " 2048", " --status"] {
        folder.told(&format!("ends job.sheet reboot{words}"), 0, &yes);
    }
    let too_few = "store: 1 markings are too few, a larger one could tell";
    let undecided = [&AT[..], &["can end: undecided", "looked at: 1", too_few]].concat();
    folder.told("ends job.sheet reboot 1", 0, &undecided);
    let asked = folder.call("ends job.sheet reboot 1 --status");
    assert_eq!((asked.status, asked.out.lines().collect(), asked.err), (2, undecided, String::new()));
    let mut rewritten = sample::graph();
    rewritten.allows[1] = 0;
    folder.put("rewritten.sheet", &sheets::written(&rewritten, START));
    let no = [&AT[..], &["can end: no", "looked at: 1"]].concat();
    folder.told("ends rewritten.sheet reboot", 0, &no);
    folder.told("ends rewritten.sheet reboot 1 --status", 1, &no);
    folder.put("empty", &[]);
    folder.put("rebooted", &REBOOTED.bytes());
    let from = [&["entries: 0"], &no[1..]].concat();
    folder.told("ends rewritten.sheet empty --from rebooted", 0, &from);
    folder.told("ends rewritten.sheet empty 1 --from rebooted --status", 1, &from);
    let start = ["entries: 0", "done: none", "due: none", "included: 0 1 2"];
    let ended = [&start[..], &["can end: yes", "fewest entries: 0", "looked at: 1"]].concat();
    folder.told("ends job.sheet empty 1", 0, &ended);
}

/// Twelve steps in any order, and one that is due and nobody's: a larger store than the largest would be needed.
#[test]
fn the_largest_store() {
    let folder = Folder::new("largest");
    let mut g = Graph::bare(13, 1, 1);
    g.allows[..12].fill(1);
    g.holds[0] = 1;
    folder.put("wide.sheet", &sheets::written(&g, Marking::new(0, 1 << 12, 0x1fff)));
    folder.put("empty", &[]);
    let at = ["entries: 0", "done: none", "due: 12", "included: 0 1 2 3 4 5 6 7 8 9 10 11 12"];
    let told = |looked: &str, store: &str| [&at[..], &["can end: undecided", looked, store]].concat().join("\n");
    // 1,586 sets have at most five of the twelve, and 462 of six have step 0. These are all found at those of five that
    // have it, which are 330 behind 794 of fewer, the last at the fifth from their end; the next of six right behind.
    let most = told("looked at: 1125", "store: 2048 markings are too few, and it may not have more");
    let less = told("looked at: 1120", "store: 2047 markings are too few, a larger one could tell");
    for (words, right) in [("", &most), (" 2048", &most), (" 2047", &less)] {
        let out = folder.call(&format!("ends wide.sheet empty{words}")).out;
        assert_eq!(out.trim_end(), right, "{words}");
    }
}

#[test]
fn no_store() {
    let folder = Folder::new("no-store");
    let refused = |given: &str, found: &str| {
        let found = format!("found: a store for {found} markings");
        let why = ["refused: 22 the store is no whole number of markings from 1 to 2,048", &found];
        let lines = [&why[..], &["expected: 1 to 2048"], &AT[1..]].concat();
        folder.told(&format!("ends job.sheet reboot {given}"), 1, &lines);
        let asked = folder.call(&format!("ends job.sheet reboot {given} --status"));
        assert_eq!((asked.status, asked.out.lines().collect(), asked.err), (2, lines, String::new()));
    };
    let most = "18446744073709551615";
    for (given, said) in [("0", "0"), ("2049", "2049"), ("65537", "65537"), ("99999999999999999999", most)] {
        refused(given, said);
    }
}

/// A journal or marking that is refused comes before the store.
#[test]
fn what_is_refused_before_the_store() {
    let folder = Folder::new("before-store");
    let excluded = ["refused: 14 the step is not included", "file: late", "found: step 2, excluded"];
    let at = ["expected: included", "entry 1: person 1, step 2, role 1"];
    folder.told("ends job.sheet late 0", 1, &[&excluded[..], &at, &AT[1..]].concat());
    folder.put("torn", &[0; 4]);
    let length = "refused: 7 the bytes of the journal are no multiple of 3, or too many";
    let torn = [length, "file: torn", "found: 4 bytes", "expected: a multiple of 3, at most 65535"];
    folder.told("ends job.sheet torn 0", 1, &torn);
    folder.put("beyond", &[&[8][..], &[0; 23]].concat());
    let outside = "refused: 8 the marking has a step that the graph does not have";
    let beyond = [outside, "file: beyond", "found: steps 3 in done", "expected: steps 0 to 2"];
    folder.told("ends job.sheet reboot 0 --from beyond", 1, &beyond);
}

#[test]
fn wrong_use() {
    let folder = Folder::new("ends-use");
    let complained = |words: &str, why: &str| {
        folder.told(words, 2, &[]);
        assert_eq!(folder.call(words).err, format!("second: {why}\n"), "{words}");
    };
    complained("ends job.sheet reboot 0x", "0x: MARKINGS is a number, digits 0 to 9 alone");
    complained("ends not-there reboot 1.5", "1.5: MARKINGS is a number, digits 0 to 9 alone");
    complained("ends job.sheet reboot -1", "-1: unknown option");
    let usage = "usage: second ends SHEET JOURNAL [MARKINGS] [--from MARKING] [--status]";
    complained("ends job.sheet reboot 1 1", usage);
    complained("ends job.sheet", usage);
    complained("ends job.sheet reboot 1 --force", "--force: 'second ends' takes no such option");
}

/// Over jobs of every kind the lines say what the call answers.
#[test]
fn as_the_call_answers() {
    let folder = Folder::new("ends-any");
    let mut seen = [0; 4];
    for case in 0..60 {
        let job = jobs::make(&mut Dice::new(23, case), case);
        let Ok((g, m)) = model::sheet::read(&job.sheet) else { continue };
        let ran = model::run(&g, m.write(), &job.journals[0]);
        folder.put("any.sheet", &job.sheet);
        folder.put("journal", &job.journals[0]);
        for places in [1, 2, 10, 60] {
            let out = folder.call(&format!("ends any.sheet journal {places}")).out;
            if ran.number != 0 {
                assert!(out.starts_with(&format!("refused: {} ", ran.number)), "case {case}");
                continue;
            }
            let (Ends { verdict, fewest, looked, .. }, _) = model::can_end(&g, ran.marking, 24 * places);
            let right = match verdict {
                REACHABLE => format!("can end: yes\nfewest entries: {fewest}\nlooked at: {looked}\n"),
                NONE => format!("can end: no\nlooked at: {looked}\n"),
                _ => format!("can end: undecided\nlooked at: {looked}\nstore: {places} markings are too few, "),
            };
            assert!(out.contains(&right), "case {case}, {places}: {out}");
            seen[verdict as usize] += 1;
        }
    }
    assert!(seen[1..].iter().all(|times| *times > 10), "{seen:?}");
}
