//! Right and wrong use, over the sample job, whose files are copies: a wrong program may write over them.

use super::{
    call::{Call, Journal},
    report::Report,
};
use crate::cases::{jobs, Dice};
use std::ffi::OsStr;
use std::fs;
use std::io;
use std::os::unix::ffi::OsStrExt;
use std::path::{Path, PathBuf};

/// What each command takes; a capital letter stands for a file of the job.
const USES: [&str; 21] = [
    "check S",
    "show S",
    "write S OUT",
    "cabinet 5 OUT",
    "may S J",
    "may S J 0",
    "ask S J 0 0 0",
    "take S J 0 0 0",
    "run S J OUT",
    "finished S J",
    "ends S J",
    "ends S J 5",
    "fold S J OUT",
    "join 3 R R OUT",
    "apply 3 R M OUT",
    "restore S R J OUT",
    "record R",
    "marking M",
    "entries J",
    "lap S J J",
    "track S J",
];

/// Each replaces the number of a use that has one.
const NUMBERS: [&str; 10] = ["0", "1", "64", "65", "255", "256", "003", "99999999999999999999", "x", "-1"];

/// Each stands behind a use: known by some commands, by none, or no option at all.
const OPTIONS: [&str; 12] = [
    "--never",
    "--status",
    "--from M",
    "--from S",
    "--from",
    "--from M --from M",
    "--from not-there",
    "--any",
    "-x",
    "--from=M",
    "--",
    "-- --force",
];

/// The folder of the copies.
struct Job(PathBuf);

pub fn play(folder: &Path, report: &mut Report) -> io::Result<()> {
    let job = Job::make(folder)?;
    for words in ["", "nothing", "chekc S", "--force", "-", "--", "-- check S", "--never check S", "-- S check"] {
        report.ask(job.call(words))?;
    }
    for words in
        ["apply 3 R S", "marking S", "marking J", "run S J J --force", "write S S --force", "fold S J S --force"]
    {
        report.ask(job.call(words))?;
    }
    for name in [&b"a\nb"[..], b"", b"\xff", b"not-there", b"with space"] {
        report.ask(Call::new("check").word(OsStr::from_bytes(name)))?;
        report.ask(job.call("check S").word(OsStr::from_bytes(name)))?;
    }
    for name in [&b"\xffodd"[..], b"two\nlines", b"-dash"] {
        let odd = job.0.join(OsStr::from_bytes(name));
        fs::copy(job.file("D").expect("it is there"), &odd)?;
        report.ask(Call::new("check").word(odd))?;
    }
    for (i, usage) in USES.iter().enumerate() {
        let words: Vec<&str> = usage.split(' ').collect();
        job.amounts(report, &words, &format!("use.{i}"))?;
        job.inputs(report, &words)?;
        job.outputs(report, &words, &format!("use.{i}"))?;
        job.options(report, &words)?;
        for number in NUMBERS.iter().filter(|_| words[1] == "3") {
            let words: Vec<_> = words.iter().map(|word| if *word == "3" { number } else { word }).copied().collect();
            report.ask(job.call(&words[..words.len() - 1].join(" ")))?;
        }
    }
    Ok(())
}

/// The words without the file that is written.
fn shown<'a>(words: &'a [&'a str]) -> &'a [&'a str] {
    match words {
        [shown @ .., "OUT"] => shown,
        _ => words,
    }
}

impl Job {
    fn make(folder: &Path) -> io::Result<Job> {
        let jobs::Job { sheet, journals, marking, record } = jobs::make(&mut Dice::new(0, 0), 0);
        fs::create_dir_all(folder)?;
        let damaged = &sheet[..sheet.len() - 1];
        for (name, bytes) in [("S", &sheet[..]), ("J", &journals[0]), ("M", &marking), ("R", &record), ("D", damaged)] {
            fs::write(folder.join(name), bytes)?;
        }
        Ok(Job(folder.canonicalize()?))
    }

    /// The file that a capital letter stands for.
    fn file(&self, word: &str) -> Option<PathBuf> {
        ["S", "J", "M", "R", "D"].contains(&word).then(|| self.0.join(word))
    }

    /// The journal of a call that takes a step is the program's own.
    fn call(&self, words: &str) -> Call {
        let words: Vec<&str> = words.split_whitespace().collect();
        let own = words.iter().position(|word| *word == "take").map(|place| place + 2);
        words.iter().enumerate().fold(Call::default(), |call, (place, word)| match (*word, self.file(word)) {
            ("J" | "not-there", file) if Some(place) == own => call.journal(Journal {
                name: "use.journal".into(),
                before: file.and_then(|file| fs::read(file).ok()),
                added: [0; 3],
            }),
            (_, Some(file)) => call.word(file),
            _ => call.word(word),
        })
    }

    /// Too few words, and too many.
    fn amounts(&self, report: &mut Report, words: &[&str], out: &str) -> io::Result<()> {
        for length in 1..words.len() {
            report.ask(self.call(&words[..length].join(" ")))?;
        }
        report.ask(self.call(&shown(words).join(" ")).word(out).word("more"))?;
        Ok(())
    }

    /// Each input from standard input, from a file that is not there, and from a folder; and two from standard input.
    fn inputs(&self, report: &mut Report, words: &[&str]) -> io::Result<()> {
        let shown = shown(words);
        let files: Vec<usize> = (1..shown.len()).filter(|i| self.file(words[*i]).is_some()).collect();
        for &i in &files {
            for other in ["-", "not-there", "."] {
                let mut changed = shown.to_vec();
                changed[i] = other;
                let asked = self.call(&changed.join(" "));
                let lent = self.file(words[i]).filter(|_| other == "-");
                report.ask(lent.map_or(asked.clone(), |lent| asked.input(&lent)))?;
            }
        }
        let all: Vec<_> = shown.iter().map(|word| self.file(word).map_or(*word, |_| "-")).collect();
        report.ask(self.call(&all.join(" ")).input(&self.0.join("S")))?;
        Ok(())
    }

    /// A file that is new, one that exists, one that is written over, none, and one in a folder that is not there; or force in
    /// vain.
    fn outputs(&self, report: &mut Report, words: &[&str], out: &str) -> io::Result<()> {
        let shown = self.call(&shown(words).join(" "));
        report.ask(shown.clone().word("--force"))?;
        if !words.contains(&"OUT") {
            return Ok(());
        }
        report.ask(shown.clone().out(out))?;
        report.ask(shown.clone().out(out))?;
        report.ask(shown.clone().out(out).word("--force"))?;
        report.ask(shown.clone().word("--force").out(out))?;
        report.ask(shown.clone().word("-"))?;
        report.ask(shown.out("not-there/out"))?;
        Ok(())
    }

    fn options(&self, report: &mut Report, words: &[&str]) -> io::Result<()> {
        let shown = shown(words).join(" ");
        for option in OPTIONS {
            report.ask(self.call(&format!("{shown} {option}")))?;
        }
        report.ask(self.call(&format!("-- {shown}")))?;
        Ok(())
    }
}
