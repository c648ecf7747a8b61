//! Jobs that can still end and jobs that cannot, with stores of every size.

use super::{call::Call, report::Report};
use crate::cases::sheets;
use crate::data::{Graph, Marking};
use crate::sample::{graph, REBOOTED, START};
use std::fs;
use std::io;
use std::path::{Path, PathBuf};

/// How many markings, from few to the most.
const STORES: [&str; 10] = ["1", "2", "3", "4", "64", "65", "0066", "2047", "2048", "00002048"];

/// No store is for so many. Some are lawful where only the lowest bits are looked at, and with 24 bytes each some come
/// round to a lawful length.
const NO_STORES: [&str; 13] = [
    "0",
    "000",
    "2049",
    "4096",
    "49152",
    "65537",
    "4294967297",
    "768614336404564651",
    "2305843009213693953",
    "2305843009213696000",
    "18446744073709551615",
    "18446744073709551616",
    "99999999999999999999",
];

/// No number, or one that is spelt oddly.
const WORDS: [&str; 9] = ["x", "0x1", "+1", "1.5", "1 ", " 1", "", "2,048", "-1"];

/// The folder of the sheets, the journals and the markings.
struct Jobs(PathBuf);

pub fn play(folder: &Path, report: &mut Report) -> io::Result<()> {
    let jobs = Jobs::make(folder)?;
    for sheet in ["job", "rewritten", "two", "eleven", "twelve", "chain"] {
        jobs.stores(report, sheet)?;
    }
    jobs.journals(report)?;
    for word in NO_STORES.iter().chain(&WORDS) {
        report.ask(jobs.call("rewritten", "reboot").word(word))?;
        report.ask(jobs.call("job", "empty").word("--status").word(word))?;
        report.ask(jobs.call("job", "refused").word(word))?;
    }
    Ok(())
}

/// A store for each turn: small ones, and one that is none.
pub fn store(turn: usize) -> &'static str {
    ["1", "2", "3", "5", "10", "20", "30", "50", "100", "1000", "2049"][turn % 11]
}

impl Jobs {
    fn make(folder: &Path) -> io::Result<Jobs> {
        fs::create_dir_all(folder)?;
        let mut rewritten = graph();
        rewritten.allows[1] = 0;
        let beyond = Marking::new(0, 1 << 3, 0);
        for (name, graph, first) in [
            ("job", &graph(), START),
            ("rewritten", &rewritten, START),
            ("two", &free(2), Marking::new(0, 0b01, 0b11)),
            ("eleven", &stuck(11), Marking::new(0, 1 << 11, 0xfff)),
            ("twelve", &stuck(12), Marking::new(0, 1 << 12, 0x1fff)),
            ("chain", &chain(), Marking::new(0, 1 << 63, u64::MAX)),
        ] {
            fs::write(folder.join(name), sheets::written(graph, first))?;
        }
        let zeros = vec![0; 65_536];
        for (name, bytes) in [
            ("empty", &[][..]),
            ("reboot", &zeros[..3]),
            ("refused", &[0, 0, 0, 1, 2, 1]),
            ("torn", &zeros[..4]),
            ("full", &zeros[..65_535]),
            ("long", &zeros),
            ("rebooted", &REBOOTED.bytes()),
            ("beyond", &beyond.bytes()),
        ] {
            fs::write(folder.join(name), bytes)?;
        }
        Ok(Jobs(folder.canonicalize()?))
    }

    fn call(&self, sheet: &str, journal: &str) -> Call {
        Call::new("ends").word(self.0.join(sheet)).word(self.0.join(journal))
    }

    /// Each size, and none; and after an entry, by status.
    fn stores(&self, report: &mut Report, sheet: &str) -> io::Result<()> {
        for store in STORES.iter().map(Some).chain([None]) {
            let sized = |call: Call| store.iter().fold(call, |call, store| call.word(store));
            report.ask(sized(self.call(sheet, "empty")))?;
            report.ask(sized(self.call(sheet, "reboot")).word("--status"))?;
        }
        Ok(())
    }

    /// Whatever comes before the store is refused first, also where there is no store.
    fn journals(&self, report: &mut Report) -> io::Result<()> {
        for journal in ["empty", "reboot", "refused", "torn", "full", "long", "not-there"] {
            for (sheet, store) in [("job", "1"), ("rewritten", "0"), ("rewritten", "2048"), ("empty", "0")] {
                report.ask(self.call(sheet, journal).word(store))?;
                let from = |marking| self.call(sheet, journal).word(store).word("--from").word(self.0.join(marking));
                report.ask(from("rebooted"))?;
                report.ask(from("beyond").word("--status"))?;
            }
        }
        Ok(())
    }
}

/// So many steps without arrows, which one person may take.
fn free(steps: u64) -> Graph {
    let mut g = Graph::bare(steps, 1, 1);
    g.allows[..steps as usize].fill(1);
    g.holds[0] = 1;
    g
}

/// So many, and one more that nobody may take.
fn stuck(steps: u64) -> Graph {
    let mut g = free(steps + 1);
    g.allows[steps as usize] = 0;
    g
}

/// As many steps as there can be, each of which waits for the one before it.
fn chain() -> Graph {
    let mut g = free(64);
    (1..64).for_each(|step| g.conditions[step] = 1 << (step - 1));
    g
}
