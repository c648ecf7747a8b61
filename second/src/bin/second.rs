//! `second COMMAND ARGUMENTS`: the commands of `ulz`, answered by the model alone; `second help` lists them.
//! `second generate FOLDER COUNT SEED`: so many jobs as files, a quarter of them with a damaged sheet.
//! `second alike ULZ WORK FOLDER`, `second alike ULZ WORK --list FILE`: every command over the jobs in a folder or a list, by a
//! program ULZ and by this one. What they write goes to the folder WORK. Status 1 where they differ, 2 where nothing is compared.

#![forbid(unsafe_code)]

use second::alike::{alike, Jobs};
use second::program::{call, complaint, generate, Told};
use std::ffi::{OsStr, OsString};
use std::io::{stderr, stdout, Write};
use std::os::unix::ffi::OsStrExt;
use std::path::Path;
use std::process::ExitCode;

fn main() -> ExitCode {
    let words: Vec<OsString> = std::env::args_os().skip(1).collect();
    let spelt: Vec<&[u8]> = words.iter().map(|word| word.as_bytes()).collect();
    let told = match &spelt[..] {
        [b"generate", _, count, seed] => generated(&words[1], count, seed),
        [b"alike", _, _, b"--list", _] => compared(&words[1], &words[2], Jobs::Listed(words[4].as_ref())),
        [b"alike", _, _, _] => compared(&words[1], &words[2], Jobs::Folder(words[3].as_ref())),
        [b"generate" | b"alike", ..] => complaint(b"'second help' says how generate and alike are called"),
        _ => call(&words),
    };
    let said = stdout().write_all(&told.out).and_then(|()| stdout().flush()).and(stderr().write_all(&told.err));
    ExitCode::from(if said.is_ok() { told.status } else { 2 })
}

fn generated(folder: &OsStr, count: &[u8], seed: &[u8]) -> Told {
    let number = |word: &[u8]| std::str::from_utf8(word).ok()?.parse().ok();
    let (Some(count), Some(seed)) = (number(count), number(seed)) else {
        return complaint(b"generate: COUNT and SEED are numbers");
    };
    match generate(Path::new(folder), count, seed) {
        Ok(files) => Told { out: format!("wrote: {files} files\n").into(), ..Told::default() },
        Err(why) => complaint(&why),
    }
}

fn compared(ulz: &OsStr, work: &OsStr, jobs: Jobs) -> Told {
    let own = std::env::current_exe().map_err(|why| why.to_string());
    match own.and_then(|own| alike(Path::new(ulz), &own, &jobs, Path::new(work))) {
        Ok(report) => Told { out: report.text(), status: report.status(), ..Told::default() },
        Err(why) => complaint(format!("alike: {why}").as_bytes()),
    }
}
