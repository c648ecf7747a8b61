//! The command `cabinet`.

use super::program::Folder;
use crate::model;
use std::fs;

#[test]
fn sheets_of_every_mast() {
    let folder = Folder::new("masts");
    for arms in 2..=16 {
        folder.told(&format!("cabinet {arms} mast.{arms}"), 0, &[&format!("wrote: {} bytes", 72 + 15 * arms)]);
        let written = fs::read(folder.0.join(format!("mast.{arms}"))).expect("it is there");
        assert_eq!(Ok(written), model::cabinet::write(arms, 400), "{arms} arms");
    }
    folder.told("cabinet 0002 long", 0, &["wrote: 102 bytes"]);
}

#[test]
fn two_arms_shown() {
    let folder = Folder::new("two-arms");
    folder.told("cabinet 2 mast", 0, &["wrote: 102 bytes"]);
    let counts = ["steps: 4", "people: 2", "roles: 2", "actions: 4"];
    folder.told("check mast", 0, &[&["sheet: ok"], &counts[..], &["arrows: 9"]].concat());
    let shown = [
        "person 0: roles 0",
        "person 1: roles 1",
        "action 0: roles 0 1",
        "action 1: roles 0",
        "action 2: roles 0",
        "action 3: roles 1",
        "step 0: action 0, roles 0 1, included",
        "step 1: action 1, roles 0, included, due",
        "step 2: action 2, roles 0, excluded, due",
        "step 3: action 3, roles 1, excluded",
        "response 0 1: doing step 0 makes step 1 due",
        "response 0 2: doing step 0 makes step 2 due",
        "include 0 1: doing step 0 includes step 1",
        "include 1 2: doing step 1 includes step 2",
        "include 2 3: doing step 2 includes step 3",
        "exclude 0 2: doing step 0 excludes step 2",
        "exclude 0 3: doing step 0 excludes step 3",
        "exclude 1 1: doing step 1 excludes step 1",
        "exclude 2 2: doing step 2 excludes step 2",
        "arrows: 9",
        "finished: no",
        "to do: 1",
    ];
    folder.told("show mast", 0, &[&counts[..], &shown].concat());
    folder.put("up", &[0, 1, 0, 0, 2, 0]);
    let end = ["entries: 2", "done: 1 2", "due: none", "included: 0 3", "finished: yes"];
    folder.told("run mast up", 0, &end);
    folder.put("empty", &[]);
    let start = ["entries: 0", "done: none", "due: 1 2", "included: 0 1"];
    let ends = [&start[..], &["can end: yes", "fewest entries: 2", "looked at: 6"]].concat();
    folder.told("ends mast empty", 0, &ends);
}

/// Nothing is written, and the file is not looked at.
#[test]
fn arms_that_no_mast_has() {
    let folder = Folder::new("no-masts");
    folder.put("there", b"as it was");
    let most = "18446744073709551615";
    for (given, said) in [
        ("0", "0"),
        ("1", "1"),
        ("17", "17"),
        ("00040", "40"),
        ("258", "258"),
        ("4294967298", "4294967298"),
        (most, most),
        ("18446744073709551618", most),
        ("99999999999999999999", most),
    ] {
        let found = format!("found: {said} arms");
        let lines = ["refused: 30 the number of arms is not from 2 to 16", &found, "expected: 2 to 16"];
        folder.told(&format!("cabinet {given} out"), 1, &lines);
        folder.told(&format!("cabinet {given} there"), 1, &lines);
        folder.told(&format!("cabinet {given} there --force"), 1, &lines);
    }
    assert!(!folder.0.join("out").exists());
    assert_eq!(fs::read(folder.0.join("there")).ok(), Some(b"as it was".to_vec()));
}

#[test]
fn a_file_that_is_there() {
    let folder = Folder::new("mast-there");
    folder.put("there", &[7; 500]);
    let told = folder.call("cabinet 3 there");
    assert_eq!((told.status, told.out), (2, String::new()));
    assert!(told.err.ends_with("/there: exists already; --force writes over it\n"), "{}", told.err);
    assert_eq!(fs::read(folder.0.join("there")).ok(), Some(vec![7; 500]));
    folder.told("cabinet 3 there --force", 0, &["wrote: 117 bytes"]);
    assert_eq!(fs::read(folder.0.join("there")).ok(), model::cabinet::write(3, 117).ok());
    folder.told("cabinet 3 not-there/out", 2, &[]);
}

#[test]
fn wrong_use() {
    let folder = Folder::new("mast-use");
    let complained = |words: &str, why: &str| {
        folder.told(words, 2, &[]);
        assert_eq!(folder.call(words).err, format!("second: {why}\n"), "{words}");
    };
    for word in ["0x2", "2.0", "1,6", "2+"] {
        complained(&format!("cabinet {word} out"), &format!("{word}: ARMS is a number, digits 0 to 9 alone"));
    }
    complained("cabinet -2 out", "-2: unknown option");
    let usage = "usage: second cabinet ARMS OUT [--force]";
    for words in ["cabinet", "cabinet 2", "cabinet 2 --force", "cabinet 2 out more", "cabinet 2 -", "cabinet 1 -"] {
        complained(words, usage);
    }
    complained("cabinet 2 out --status", "--status: 'second cabinet' takes no such option");
    assert!(!folder.0.join("out").exists());
}
