//! Every command over a job: over each of its files, and over pairs of journals.

use super::{
    asking::{choices, marking, named, people, taken},
    call::Call,
    ends::store,
    jobs::{File, Job},
    report::{Came, Report},
};
use std::ffi::OsString;
use std::fs;
use std::io;
use std::path::Path;

/// A job, and the number by which the files are called that are written for it.
pub struct Play<'a> {
    pub job: &'a Job,
    pub index: usize,
}

impl Play<'_> {
    pub fn all(&self, report: &mut Report) -> io::Result<()> {
        let came = report.ask(self.call("check"))?;
        report.sheet(&self.job.sheet, came);
        report.ask(self.call("show"))?;
        report.ask(self.call("write").out(&self.own("sheet")))?;
        for (i, journal) in self.job.journals.iter().enumerate() {
            self.journal(report, i, journal)?;
        }
        for marking in &self.job.markings {
            report.ask(Call::new("marking").word(&marking.path))?;
        }
        for record in &self.job.records {
            report.ask(Call::new("record").word(&record.path))?;
        }
        for i in 0..self.job.journals.len() {
            self.pair(report, i, (i + 1) % self.job.journals.len())?;
        }
        Ok(())
    }

    fn journal(&self, report: &mut Report, i: usize, journal: &File) -> io::Result<()> {
        let call = |command| self.call(command).word(&journal.path);
        let came = report.ask(call("run").out(&self.own(&format!("{i}.marking"))))?;
        report.pair(&self.job.sheet, journal, came);
        report.ask(Call::new("entries").word(&journal.path))?;
        report.ask(call("may"))?;
        report.ask(call("track"))?;
        report.ask(asked(call("finished"), i))?;
        let folded = self.own(&format!("{i}.record"));
        if report.ask(call("fold").out(&folded))? == Came::Never {
            report.ask(call("fold").word("--never").out(&folded))?;
        }
        for (k, marking) in self.job.markings.iter().enumerate() {
            let from = |command| call(command).word("--from").word(&marking.path);
            report.ask(from("run").out(&self.own(&format!("{i}.from.{k}"))))?;
            report.ask(from("may"))?;
            report.ask(from("track"))?;
        }
        self.entries(report, i, journal)
    }

    /// Entries after the journal, asked for and taken, the latter after a copy of it, what people may take there, and
    /// whether the job can end; after one journal of a job from a marking.
    fn entries(&self, report: &mut Report, i: usize, journal: &File) -> io::Result<()> {
        let turn = 4 * self.index + i;
        let from = self.job.markings.first().filter(|_| i == self.index % 4);
        let [Ok(sheet), Ok(before)] = [&self.job.sheet, journal].map(|file| fs::read(&file.path)) else {
            return Ok(());
        };
        let start = from.and_then(|file| marking(&fs::read(&file.path).ok()?));
        let with_from = |call: Call| match from {
            Some(marking) => call.word("--from").word(&marking.path),
            None => call,
        };
        for entry in choices(&sheet, &before, start, turn) {
            report.ask(with_from(named(self.call("ask").word(&journal.path), entry)))?;
            report.ask(with_from(taken(
                self.call("take"),
                &self.own(&format!("{i}.journal")),
                Some(&before),
                entry,
            )))?;
        }
        for person in people(&sheet, turn) {
            report.ask(with_from(self.call("may").word(&journal.path).word(person.to_string())))?;
        }
        let ends = || with_from(self.call("ends").word(&journal.path));
        report.ask(asked(ends(), turn))?;
        report.ask(asked(ends().word(store(turn)), turn + 1))?;
        Ok(())
    }

    /// A journal and another: one after the other, and their records.
    fn pair(&self, report: &mut Report, i: usize, j: usize) -> io::Result<()> {
        let [first, second] = [i, j].map(|i| &self.job.journals[i].path);
        let lap = || self.call("lap").word(first).word(second);
        report.ask(asked(lap(), i))?;
        if let Some(marking) = self.job.markings.first() {
            report.ask(lap().word("--from").word(&marking.path))?;
        }
        let n = self.steps()?;
        for (k, record) in self.records_of(report, i).iter().enumerate() {
            let out = |kind| self.own(&format!("{i}.{j}.{k}.{kind}"));
            report.ask(self.call("restore").word(record).word(second).out(&out("marking")))?;
            for other in &self.records_of(report, j) {
                let joined = Call::new("join").word(&n).word(record).word(other).word("--force");
                report.ask(joined.out(&out("record")))?;
            }
            for marking in &self.job.markings {
                let applied = Call::new("apply").word(&n).word(record).word(&marking.path).word("--force");
                report.ask(applied.out(&out("applied")))?;
            }
        }
        Ok(())
    }

    /// What both programs folded the journal to; and for the first journal the records that were there already.
    fn records_of(&self, report: &Report, journal: usize) -> Vec<OsString> {
        let folded = self.own(&format!("{journal}.record"));
        let given = self.job.records.iter().filter(|_| journal == 0).map(|file| file.path.clone().into());
        report.written(&folded).then_some(folded.into()).into_iter().chain(given).collect()
    }

    fn call(&self, command: &str) -> Call {
        Call::new(command).word(&self.job.sheet.path)
    }

    /// The name of a file that a program writes.
    fn own(&self, kind: &str) -> String {
        format!("{}.{kind}", self.index)
    }

    fn steps(&self) -> io::Result<String> {
        steps(&self.job.sheet.path)
    }
}

/// Every other time by status.
fn asked(call: Call, time: usize) -> Call {
    if time % 2 == 0 {
        return call;
    }
    call.word("--status")
}

/// What a sheet says in the first place after its contents, which byte 0 tells the end of, or 3.
pub fn steps(sheet: &Path) -> io::Result<String> {
    let sheet = fs::read(sheet)?;
    let place = if sheet.first() == Some(&5) { 26 } else { 31 };
    Ok(sheet.get(place).unwrap_or(&3).to_string())
}
