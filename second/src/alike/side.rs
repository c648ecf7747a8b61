use super::call::{Call, Journal};
use std::fs::{self, File};
use std::io;
use std::path::{Path, PathBuf};
use std::process::{Child, Command, Stdio};

/// One of the two programs, and the folder where it runs and writes.
pub struct Side {
    /// What it calls itself.
    pub name: &'static str,
    program: PathBuf,
    pub folder: PathBuf,
}

/// What came of a call.
#[derive(PartialEq, Eq)]
pub struct Heard {
    pub out: Vec<u8>,
    pub err: Complaint,
    pub status: i32,
    pub file: Option<Vec<u8>>,
}

#[derive(PartialEq, Eq, Debug)]
pub enum Complaint {
    None,
    /// One line that begins with the program's name, and what follows where its words are fixed; otherwise they are each
    /// program's own.
    Line(Option<String>),
    Other(String),
}

/// How the lines end whose words are fixed.
const FIXED: [&str; 9] = [
    ": exists already; --force writes over it",
    ": is read by this call, and is not written over",
    ": is there and is no ordinary file",
    ": the journal is a file, and has to be named",
    ": a marking has 24 bytes",
    ": a person, step or role is a number, digits 0 to 9 alone",
    ": MARKINGS is a number, digits 0 to 9 alone",
    ": ARMS is a number, digits 0 to 9 alone",
    ": no marking lets this journal pass, nothing is written; --never writes the record that says so",
];

/// The status of a program that was stopped from outside.
const STOPPED: i32 = 255;

impl Side {
    pub fn new(name: &'static str, program: &Path, work: &Path) -> io::Result<Self> {
        let folder = work.join(name);
        fs::create_dir_all(&folder)?;
        Ok(Side { name, program: program.canonicalize()?, folder })
    }

    pub fn start(&self, call: &Call) -> io::Result<Child> {
        if let Some(journal) = &call.journal {
            self.put(journal)?;
        }
        let input = match &call.input {
            Some(file) => Stdio::from(File::open(file)?),
            None => Stdio::null(),
        };
        Command::new(&self.program)
            .args(&call.words)
            .current_dir(&self.folder)
            .stdin(input)
            .stdout(Stdio::piped())
            .stderr(Stdio::piped())
            .spawn()
    }

    fn put(&self, journal: &Journal) -> io::Result<()> {
        let file = self.folder.join(&journal.name);
        match &journal.before {
            Some(bytes) => fs::write(file, bytes),
            None if file.exists() => fs::remove_file(file),
            None => Ok(()),
        }
    }

    pub fn finish(&self, call: &Call, child: Child) -> io::Result<Heard> {
        let output = child.wait_with_output()?;
        let file = call.out.as_ref().and_then(|name| fs::read(self.folder.join(name)).ok());
        let status = output.status.code().unwrap_or(STOPPED);
        Ok(Heard { status, err: self.complaint(&output.stderr), out: output.stdout, file })
    }

    fn complaint(&self, err: &[u8]) -> Complaint {
        let text = String::from_utf8_lossy(err);
        let line = text.strip_suffix('\n').filter(|line| !line.contains('\n'));
        let own = line.and_then(|line| line.strip_prefix(self.name)?.strip_prefix(": "));
        match own {
            _ if text.is_empty() => Complaint::None,
            Some(line) => Complaint::Line(FIXED.iter().any(|end| line.ends_with(end)).then(|| line.into())),
            None => Complaint::Other(text.into_owned()),
        }
    }
}
