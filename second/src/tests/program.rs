use super::written;
use crate::cases::{jobs, sheets, Dice};
use crate::data::{Entry, Graph, Marking};
use crate::model;
use crate::program::{because, call, Told};
use crate::sample::{self, CHECK, PUBLISH, REBOOT, START};
use std::ffi::OsString;
use std::fs;
use std::path::PathBuf;

pub struct Heard {
    pub out: String,
    pub err: String,
    pub status: u8,
}

/// A folder of its own for a test, with the sample job in it.
pub struct Folder(pub PathBuf);

impl Folder {
    pub fn new(name: &str) -> Self {
        let folder = std::env::temp_dir().join(format!("second-{}-{name}", std::process::id()));
        fs::create_dir_all(&folder).expect("a folder");
        let folder = Folder(folder);
        folder.put("job.sheet", &jobs::make(&mut Dice::new(0, 0), 0).sheet);
        folder.put("reboot", &written(&[REBOOT]));
        folder.put("late", &written(&[REBOOT, PUBLISH]));
        folder.put("check", &written(&[CHECK]));
        folder
    }

    pub fn put(&self, name: &str, bytes: &[u8]) {
        fs::write(self.0.join(name), bytes).expect("a file");
    }

    /// The command, numbers and words with a dash stand for themselves; the others are files here.
    pub fn call(&self, words: &str) -> Heard {
        let word = |(i, word): (usize, &str)| {
            let plain = i == 0 || word.starts_with('-') || word.starts_with(|first: char| first.is_ascii_digit());
            if plain {
                word.to_string()
            } else {
                self.0.join(word).to_string_lossy().into_owned()
            }
        };
        let Told { out, err, status } =
            call(&words.split(' ').enumerate().map(word).map(OsString::from).collect::<Vec<_>>());
        let [out, err] = [out, err].map(|text| String::from_utf8(text).expect("the names are"));
        Heard { out, err, status }
    }

    pub fn told(&self, words: &str, status: u8, lines: &[&str]) {
        let told = self.call(words);
        let out = told.out.replace(&format!("{}/", self.0.display()), "");
        assert_eq!((told.status, out.lines().collect::<Vec<_>>()), (status, lines.to_vec()), "{words}");
        assert_eq!(told.err.lines().count(), usize::from(status == 2), "{words}");
    }
}

impl Drop for Folder {
    fn drop(&mut self) {
        let _ = fs::remove_dir_all(&self.0);
    }
}

#[test]
fn the_accident() {
    let folder = Folder::new("accident");
    let rebooted = ["done: 0", "due: 1", "included: 0 1"];
    let excluded =
        ["refused: 14 the step is not included", "file: late", "found: step 2, excluded", "expected: included"];
    let at = |entry| [&excluded[..], &[entry], &rebooted[..]].concat();
    folder.told("run job.sheet late", 1, &at("entry 1: person 1, step 2, role 1"));
    assert_eq!(folder.call("fold job.sheet reboot record").status, 0);
    folder.told("restore job.sheet record late out", 1, &at("entry 1: person 1, step 2, role 1"));
    let checked = ["entries: 1", "done: 0 1", "due: none", "included: 0 1 2", "finished: yes"];
    folder.told("restore job.sheet record check", 0, &checked);
    folder.told("lap job.sheet check reboot", 0, &["verdict: starved", "starved step: 1"]);
    let pass = [&excluded[..], &["pass: 1, first lap", "entry 1: person 1, step 2, role 1"]].concat();
    folder.told("lap job.sheet check late", 1, &pass);
}

#[test]
fn every_step_that_is_waited_for_is_named() {
    let folder = Folder::new("waits");
    let mut wide = sample::graph();
    wide.conditions[2] = 0b111;
    folder.put("wide.sheet", &sheets::written(&wide, START));
    folder.put("publish", &written(&[PUBLISH]));
    let refused = ["refused: 15 the step waits for steps that are not done", "file: publish"];
    let (expected, entry) = ("expected: done before step 2", "entry 0: person 1, step 2, role 1");
    let [all, two] = ["0 1 2", "0 2"].map(|steps| format!("found: steps {steps}, included and not done"));
    let at_start = [&refused[..], &[&all, expected, entry, "waits for: 0 1 2"]].concat();
    let start = ["done: none", "due: none", "included: 0 1 2"];
    folder.told("run wide.sheet publish", 1, &[&at_start[..], &start].concat());
    folder.told("may wide.sheet publish", 1, &[&at_start[..], &start].concat());
    let tracked = [&["start: rank 1, flag up"], &at_start[..], &["rank: 1", "flag: up"], &start].concat();
    folder.told("track wide.sheet publish", 1, &tracked);
    let in_lap = [&two, expected, "pass: 1, first lap", entry, "waits for: 0 2"];
    folder.told("lap wide.sheet check publish", 1, &[&refused[..], &in_lap].concat());
    assert_eq!(folder.call("fold wide.sheet check record").status, 0);
    let restored = [&two, expected, entry, "waits for: 0 2", "done: 1", "due: none", "included: 0 1 2"];
    folder.told("restore wide.sheet record publish", 1, &[&refused[..], &restored].concat());
}

#[test]
fn files_and_wrong_use() {
    let folder = Folder::new("files");
    folder.told("write job.sheet again.sheet", 0, &["wrote: 84 bytes"]);
    assert_eq!(fs::read(folder.0.join("again.sheet")).ok(), fs::read(folder.0.join("job.sheet")).ok());
    folder.told("write job.sheet again.sheet", 2, &[]);
    folder.told("write job.sheet again.sheet --force", 0, &["wrote: 84 bytes"]);
    for words in ["check", "check job.sheet reboot", "check not-there", "check job.sheet --force", "nothing", "run - -"]
    {
        folder.told(words, 2, &[]);
    }
    folder.told("apply 3 reboot late", 2, &[]);
    folder.put("marking", &[0; 24]);
    let counted = ["refused: 2 a count is out of range", "found: N is 256", "expected: 1 to 64"];
    folder.told("apply 256 reboot marking", 1, &counted);
    folder.told("apply -1 reboot marking", 2, &[]);
}

#[test]
fn options_and_what_they_change() {
    let folder = Folder::new("options");
    folder.told(
        "run job.sheet reboot rebooted",
        0,
        &["entries: 1", "done: 0", "due: 1", "included: 0 1", "finished: no", "to do: 1", "wrote: 24 bytes"],
    );
    folder.told("marking rebooted", 0, &["done: 0", "due: 1", "included: 0 1"]);
    folder.told(
        "run job.sheet check --from rebooted",
        0,
        &["entries: 1", "done: 0 1", "due: none", "included: 0 1 2", "finished: yes"],
    );
    folder.told(
        "entries late",
        0,
        &["entries: 2", "entry 0: person 0, step 0, role 0", "entry 1: person 1, step 2, role 1"],
    );
    folder.told("finished job.sheet reboot", 0, &["finished: no", "to do: 1"]);
    folder.told("finished job.sheet reboot --status", 1, &["finished: no", "to do: 1"]);
    folder.told("lap --status job.sheet check reboot", 1, &["verdict: starved", "starved step: 1"]);
    folder.put("beyond", &[&[8][..], &[0; 23]].concat());
    let refused = "refused: 8 the marking has a step that the graph does not have";
    let lines = [refused, "file: beyond", "found: steps 3 in done", "expected: steps 0 to 2"];
    folder.told("may job.sheet reboot --from beyond", 1, &lines);
    for words in [
        "check job.sheet --status",
        "run job.sheet reboot --never",
        "run job.sheet reboot --from",
        "run job.sheet reboot -x",
        "run job.sheet reboot reboot --force",
    ] {
        folder.told(words, 2, &[]);
    }
}

#[test]
fn a_fold_that_is_never() {
    let folder = Folder::new("never");
    let why =
        "because: entry 1: person 1, step 2, role 1, entry 0 has excluded the step, and none since has included it";
    folder.told("fold job.sheet late record", 2, &["never: yes", why]);
    assert!(!folder.0.join("record").exists());
    let told = folder.call("fold job.sheet late record --never");
    assert!(told.status == 0 && told.out.starts_with("never: yes\n") && told.out.ends_with("wrote: 65 bytes\n"));
}

/// A record is never exactly where an entry can be named for it.
#[test]
fn never_has_a_reason() {
    let mut seen = [0; 2];
    for case in 0..400 {
        let job = jobs::make(&mut Dice::new(17, case), case);
        let Ok((g, _)) = model::sheet::read(&job.sheet) else { continue };
        for journal in &job.journals {
            let Ok(record) = model::record::fold(&g, journal) else { continue };
            assert_eq!(record[0] == 1, because(&g, journal).is_some(), "case {case}");
            seen[usize::from(record[0])] += 1;
        }
    }
    assert!(seen.iter().all(|times| *times > 50), "{seen:?}");
}

#[test]
fn a_refusal_names_its_file() {
    let folder = Folder::new("named");
    let laid_out = |bytes: &[u8], found: &str, expected: &str| {
        folder.put("short", bytes);
        folder.told("check short", 1, &["refused: 1 not laid out as a sheet", "file: short", found, expected]);
    };
    laid_out(&[], "found: 0 bytes", "expected: 64 to 37147");
    laid_out(&[0; 3], "found: byte 0 is 0", "expected: 6 or 5, the number of bodies");
    laid_out(&[6; 3], "found: 3 bytes", "expected: 64 to 37147");
    laid_out(&[5; 3], "found: 3 bytes", "expected: 57 to 37077");
    folder.put("torn", &[0; 4]);
    let length = "refused: 7 the bytes of the journal are no multiple of 3, or too many";
    folder.told(
        "entries torn",
        1,
        &[length, "file: torn", "found: 4 bytes", "expected: a multiple of 3, at most 65535"],
    );
}

/// In five bodies as in six, of which only the latter are written.
#[test]
fn a_sheet_of_either_form() {
    let folder = Folder::new("forms");
    folder.put("five.sheet", &sheets::written_in_five(&sample::graph(), START));
    let counts = ["steps: 3", "people: 2", "roles: 2", "actions: 3"];
    let shown = [
        "person 0: roles 0",
        "person 1: roles 1",
        "action 0: roles 0 1",
        "action 1: roles 0",
        "action 2: roles 1",
        "step 0: action 0, roles 0 1, included",
        "step 1: action 1, roles 0, included",
        "step 2: action 2, roles 1, included",
        "condition 1 2: if step 1 is included, it must have been done before step 2",
        "response 0 1: doing step 0 makes step 1 due",
        "include 1 2: doing step 1 includes step 2",
        "exclude 0 2: doing step 0 excludes step 2",
        "arrows: 4",
    ];
    for sheet in ["job.sheet", "five.sheet"] {
        folder.told(&format!("check {sheet}"), 0, &[&["sheet: ok"], &counts[..], &["arrows: 4"]].concat());
        folder.told(&format!("show {sheet}"), 0, &[&counts[..], &shown, &["finished: yes"]].concat());
        folder.told(&format!("write {sheet} again.sheet --force"), 0, &["wrote: 84 bytes"]);
        assert_eq!(fs::read(folder.0.join("again.sheet")).ok(), fs::read(folder.0.join("job.sheet")).ok());
    }
}

#[test]
fn steps_that_share_an_action() {
    let folder = Folder::new("shared");
    let mut g = Graph { actions: 2, ..Graph::bare(3, 1, 2) };
    (g.holds[0], g.labels) = (0b10, [0; 64]);
    (g.allows[0], g.allows[1], g.labels[1]) = (0, 0b11, 1);
    (g.labels[2], g.conditions[2]) = (1, 0b001);
    folder.put("any.sheet", &sheets::written(&g, Marking::new(0b001, 0b010, 0b011)));
    let shown = [
        "steps: 3",
        "people: 1",
        "roles: 2",
        "actions: 2",
        "person 0: roles 1",
        "action 0: roles none",
        "action 1: roles 0 1",
        "step 0: action 0, roles none, included, done",
        "step 1: action 1, roles 0 1, included, due",
        "step 2: action 1, roles 0 1, excluded",
        "condition 0 2: if step 0 is included, it must have been done before step 2",
        "arrows: 1",
        "finished: no",
        "to do: 1",
    ];
    folder.told("show any.sheet", 0, &shown);
    folder.put("none", &[0, 0, 1]);
    let at = ["done: 0", "due: 1", "included: 0 1"];
    let refused = [
        "refused: 13 the step's action does not have this role",
        "file: none",
        "found: step 0, action 0, roles none",
        "expected: role 1 among them",
        "entry 0: person 0, step 0, role 1",
    ];
    folder.told("run any.sheet none", 1, &[&refused[..], &at].concat());
    let because = "because: entry 0: person 0, step 0, role 1, the step's action does not have this role";
    folder.told("fold any.sheet none record", 2, &["never: yes", because]);
    let blocked = ["blocked: step 0, nobody holds a role that it has", "may: step 1, person 0, role 1"];
    let rest = ["blocked: step 2, not included", "finished: no", "to do: 1"];
    folder.put("empty", &[]);
    folder.told("may any.sheet empty", 0, &[&["entries: 0"], &at[..], &blocked, &rest].concat());
}

/// `may` names exactly the entries that a move would let pass.
#[test]
fn who_may_is_who_is_let_pass() {
    let folder = Folder::new("may");
    folder.put("empty", &[]);
    for case in 0..60 {
        let job = jobs::make(&mut Dice::new(13, case), case);
        let Ok((g, m)) = model::sheet::read(&job.sheet) else { continue };
        if g.steps * g.people * g.roles > 2_000 {
            continue;
        }
        folder.put("any.sheet", &job.sheet);
        let told = folder.call("may any.sheet empty");
        let mut right = Vec::new();
        for (step, person, role) in (0..g.steps as u8)
            .flat_map(|step| (0..g.people as u8).map(move |person| (step, person)))
            .flat_map(|(step, person)| (0..g.roles as u8).map(move |role| (step, person, role)))
        {
            if model::take(&g, m.write(), Entry { person, step, role }).number == 0 {
                right.push(format!("may: step {step}, person {person}, role {role}"));
            }
        }
        let named: Vec<_> = told.out.lines().filter(|line| line.starts_with("may: ")).collect();
        assert_eq!(named, right, "case {case}");
    }
}
