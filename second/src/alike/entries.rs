//! The sample job after journals of every kind: entries, asked for and taken, and what people may take.

use super::{
    asking::{named, taken, Numbers},
    call::Call,
    report::Report,
};
use crate::cases::sheets;
use crate::data::Marking;
use crate::sample::{graph, REBOOTED, START};
use std::fs;
use std::io;
use std::path::{Path, PathBuf};

/// Two that are allowed at some time, each way to be refused, and numbers that no byte holds, whose lowest byte would be known.
const ENTRIES: [Numbers; 16] = [
    [0, 0, 0],
    [0, 1, 0],
    [1, 2, 1],
    [1, 1, 0],
    [1, 1, 1],
    [2, 0, 0],
    [0, 3, 0],
    [0, 0, 2],
    [255, 255, 255],
    [256, 0, 0],
    [0, 256, 0],
    [0, 0, 256],
    [0, 1 << 32, 0],
    [300, 2, 9],
    [1 << 63, 0, 0],
    [u64::MAX; 3],
];

/// One is allowed after every journal that runs through, and the others are not.
const FEW: [Numbers; 3] = [[0, 0, 0], [1, 2, 1], [256, 0, 0]];

/// Both who are there, the first who is not, and others whose lowest byte or lowest 32 bits would be known.
const PEOPLE: [u64; 9] = [0, 1, 2, 255, 256, 257, 300, 1 << 32, u64::MAX];

/// No number, or one that is spelt oddly or too long.
const WORDS: [&str; 9] = ["x", "0x0", "+0", "1.5", "0 ", "", "000", "18446744073709551616", "99999999999999999999"];

/// The folder of the sheet, the journals and the markings.
struct Job(PathBuf);

pub fn play(folder: &Path, report: &mut Report) -> io::Result<()> {
    let job = Job::make(folder)?;
    for journal in ["empty", "reboot"] {
        job.both(report, journal, &ENTRIES, None)?;
    }
    for journal in ["none", "refused", "torn", "end", "last", "full", "long"] {
        job.both(report, journal, &FEW, None)?;
    }
    job.both(report, "empty", &ENTRIES[..3], Some("rebooted"))?;
    for journal in ["empty", "refused", "torn", "full"] {
        job.both(report, journal, &FEW[..1], Some("beyond"))?;
    }
    job.people(report)?;
    job.words(report)?;
    job.no_journals(report)
}

impl Job {
    fn make(folder: &Path) -> io::Result<Job> {
        fs::create_dir_all(folder)?;
        let zeros = vec![0; 65_536];
        let beyond = Marking::new(0, 1 << 3, 0).bytes();
        for (name, bytes) in [
            ("sheet", &sheets::written(&graph(), START)[..]),
            ("empty", &[]),
            ("reboot", &zeros[..3]),
            ("refused", &[0, 0, 0, 1, 2, 1, 0, 1, 0]),
            ("torn", &zeros[..4]),
            ("end", &zeros[..5]),
            ("last", &zeros[..65_532]),
            ("full", &zeros[..65_535]),
            ("long", &zeros),
            ("rebooted", &REBOOTED.bytes()),
            ("beyond", &beyond),
        ] {
            fs::write(folder.join(name), bytes)?;
        }
        Ok(Job(folder.canonicalize()?))
    }

    fn call(&self, command: &str) -> Call {
        Call::new(command).word(self.0.join("sheet"))
    }

    /// Of no journal there is none to be copied.
    fn both(&self, report: &mut Report, journal: &str, entries: &[Numbers], from: Option<&str>) -> io::Result<()> {
        let (file, own) = (self.0.join(journal), format!("{journal}.journal"));
        let before = fs::read(&file).ok();
        for entry in entries {
            report.ask(self.with_from(named(self.call("ask").word(&file), *entry), from))?;
            report.ask(self.with_from(taken(self.call("take"), &own, before.as_deref(), *entry), from))?;
        }
        Ok(())
    }

    fn with_from(&self, call: Call, from: Option<&str>) -> Call {
        match from {
            Some(marking) => call.word("--from").word(self.0.join(marking)),
            None => call,
        }
    }

    /// Nothing is added to a journal, so that a full one is answered too.
    fn people(&self, report: &mut Report) -> io::Result<()> {
        for (journal, from, people) in [
            ("empty", None, &PEOPLE[..]),
            ("reboot", None, &PEOPLE),
            ("none", None, &PEOPLE[..1]),
            ("refused", None, &PEOPLE[1..3]),
            ("torn", None, &PEOPLE[1..3]),
            ("full", None, &PEOPLE[1..3]),
            ("long", None, &PEOPLE[1..3]),
            ("empty", Some("rebooted"), &PEOPLE[..3]),
            ("empty", Some("beyond"), &PEOPLE[1..3]),
            ("torn", Some("beyond"), &PEOPLE[1..3]),
        ] {
            for person in people {
                let call = self.call("may").word(self.0.join(journal)).word(person.to_string());
                report.ask(self.with_from(call, from))?;
            }
        }
        Ok(())
    }

    /// Each in the place of the person, of the step and of the role; the journal that would be added to cannot be.
    fn words(&self, report: &mut Report) -> io::Result<()> {
        for (i, word) in WORDS.iter().enumerate() {
            for place in 0..3 {
                let (command, journal) = [("ask", "reboot"), ("take", "refused")][(i + place) % 2];
                let numbers = (0..3).map(|at| if at == place { word } else { "0" });
                report.ask(
                    numbers.fold(self.call(command).word(self.0.join(journal)), |call, number| call.word(number)),
                )?;
            }
            report.ask(self.call("may").word(self.0.join("reboot")).word(word))?;
        }
        Ok(())
    }

    /// What is there and is no journal that could be added to.
    fn no_journals(&self, report: &mut Report) -> io::Result<()> {
        let take = |journal: &Path| named(self.call("take").word(journal), [0; 3]);
        let rebooted = self.0.join("rebooted");
        report.ask(take(&self.0.join("sheet")))?;
        report.ask(take(&rebooted).word("--from").word(&rebooted))?;
        for other in ["/dev/null", ".", "", "no/folder", "sheet/under"] {
            report.ask(take(Path::new(other)))?;
        }
        Ok(())
    }
}
