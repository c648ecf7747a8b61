//! Sheets alone, in six bodies and in five: is each one, and if not, why not?

use super::{call::Call, report::Report};
use crate::cases::{sheets, Dice};
use crate::sample::{graph, START};
use std::fs;
use std::io;
use std::path::{Path, PathBuf};

/// So many of any kind, most of them damaged in some field.
const SHEETS: u64 = 400;

/// The folder of the sheets, each of which has a file for itself: where one differs, it can be looked at.
struct Folder(PathBuf);

pub fn play(folder: &Path, report: &mut Report) -> io::Result<()> {
    fs::create_dir_all(folder)?;
    let folder = Folder(folder.canonicalize()?);
    for index in 0..SHEETS {
        let sheet = sheets::make(&mut Dice::new(0, index)).sheet;
        folder.check(report, format!("any.{index}"), &sheet)?;
    }
    folder.every_byte(report, "six", &sheets::written(&graph(), START))?;
    folder.every_byte(report, "five", &sheets::written_in_five(&graph(), START))
}

impl Folder {
    fn check(&self, report: &mut Report, name: String, sheet: &[u8]) -> io::Result<()> {
        let file = self.0.join(name);
        fs::write(&file, sheet)?;
        report.ask(Call::new("check").word(file))?;
        Ok(())
    }

    /// The sheet cut before each byte, and with each byte changed: a little, and as much as can be.
    fn every_byte(&self, report: &mut Report, form: &str, sheet: &[u8]) -> io::Result<()> {
        for place in 0..sheet.len() {
            self.check(report, format!("{form}.{place}.cut"), &sheet[..place])?;
            for byte in [sheet[place].wrapping_add(1), !sheet[place]] {
                let changed = [&sheet[..place], &[byte], &sheet[place + 1..]].concat();
                self.check(report, format!("{form}.{place}.{byte}"), &changed)?;
            }
        }
        self.check(report, format!("{form}.longer"), &[sheet, &[0]].concat())
    }
}
