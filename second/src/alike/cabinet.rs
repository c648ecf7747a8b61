//! Sheets of the cabinet's job, for masts of any number of arms, and what follows from them.

use super::{call::Call, report::Report};
use crate::cases::{cabinet::journal, Dice};
use std::fs;
use std::io;
use std::path::Path;

/// Lawful, spelt longer.
const LONG: [&str; 3] = ["02", "0016", "000000000000000000009"];

/// No mast has so many. Some are lawful where only the lowest bits are looked at, and some are so large that the bytes of
/// a sheet would come round to few.
const NO_MASTS: [&str; 14] = [
    "000",
    "0017",
    "255",
    "256",
    "258",
    "65538",
    "4294967298",
    "1229782938247303441",
    "9223372036854775810",
    "18446744073709551612",
    "18446744073709551615",
    "18446744073709551616",
    "18446744073709551618",
    "99999999999999999999",
];

/// No number, or one that is spelt oddly.
const WORDS: [&str; 10] = ["x", "0x2", "+2", "2.0", "2 ", " 2", "", "1,6", "-2", "two"];

/// Each program has its own sheets, and reads those.
pub fn play(folder: &Path, report: &mut Report) -> io::Result<()> {
    for arms in 0..=40 {
        let sheet = format!("cabinet.{arms}");
        report.ask(written(&arms.to_string(), &sheet))?;
        if (2..=16).contains(&arms) {
            report.ask(Call::new("check").word(&sheet))?;
            report.ask(Call::new("show").word(&sheet))?;
            journals(folder, report, arms, &sheet)?;
        }
    }
    for (i, arms) in LONG.iter().chain(&NO_MASTS).chain(&WORDS).enumerate() {
        report.ask(written(arms, &format!("cabinet.other.{i}")))?;
    }
    over_others(report)
}

fn written(arms: &str, out: &str) -> Call {
    Call::new("cabinet").word(arms).out(out)
}

/// A journal that is empty and others as they come, from the start on.
fn journals(folder: &Path, report: &mut Report, arms: u64, sheet: &str) -> io::Result<()> {
    fs::create_dir_all(folder)?;
    let folder = folder.canonicalize()?;
    for (i, entries) in [0, 5, 20, 60].into_iter().enumerate() {
        let file = folder.join(format!("{arms}.{i}"));
        fs::write(&file, journal(&mut Dice::new(arms, i as u64), arms, entries))?;
        for command in ["run", "may", "finished", "ends", "track"] {
            report.ask(Call::new(command).word(sheet).word(&file))?;
        }
    }
    Ok(())
}

/// A file that exists, with force and without: the arms are asked for first, and where they are refused it stays.
fn over_others(report: &mut Report) -> io::Result<()> {
    let out = "cabinet.again";
    report.ask(written("9", out))?;
    for arms in ["2", "16", "1", "17", "99999999999999999999", "x", ""] {
        report.ask(written(arms, out))?;
        report.ask(written(arms, out).word("--force"))?;
        report.ask(Call::new("cabinet").word("--force").word(arms).out("not-there/out"))?;
        report.ask(Call::new("cabinet").word(arms).word("-"))?;
        report.ask(Call::new("cabinet").word(arms).word("."))?;
    }
    Ok(())
}
