//! What is read and written. The error is the line that says why it cannot be: a name, and the system's words.

use std::ffi::OsStr;
use std::fs::{self, File, OpenOptions};
use std::io::{self, stdin, ErrorKind, Read, Write};
use std::ops::Deref;
use std::os::unix::{ffi::OsStrExt, fs::MetadataExt};
use std::path::Path;

/// One byte more than any input may have: what is longer still is refused by the same number.
const MOST: u64 = 65_536;

/// What was read, and by which word of the call.
pub struct Input {
    pub name: Vec<u8>,
    pub bytes: Vec<u8>,
}

impl Deref for Input {
    type Target = [u8];

    fn deref(&self) -> &[u8] {
        &self.bytes
    }
}

/// A name as it is printed: it may hold any byte, and stands on one line.
pub fn shown(name: &[u8]) -> Vec<u8> {
    name.iter().map(|byte| if byte.is_ascii_control() { b'?' } else { *byte }).collect()
}

/// A name that is text: no other is taken for a file's.
fn text(name: &OsStr) -> io::Result<&OsStr> {
    const ILLEGAL_SEQUENCE: i32 = 84;
    name.to_str().map(|_| name).ok_or_else(|| io::Error::from_raw_os_error(ILLEGAL_SEQUENCE))
}

/// The whole of a file, or of standard input for `-`, up to the most that is looked at.
pub fn read(name: &OsStr) -> Result<Input, Vec<u8>> {
    let mut bytes = Vec::new();
    let read = match name.as_bytes() {
        b"-" => stdin().take(MOST).read_to_end(&mut bytes),
        _ => text(name).and_then(File::open).and_then(|file| file.take(MOST).read_to_end(&mut bytes)),
    };
    read.map(|_| Input { name: name.as_bytes().into(), bytes }).map_err(|why| reason(name, &why))
}

/// The same of a file that is to be added to: one that is not there is empty.
pub fn read_if_there(name: &OsStr) -> Result<Input, Vec<u8>> {
    match text(name).and_then(fs::metadata) {
        Ok(there) if !there.is_file() => Err([name.as_bytes(), b": is there and is no ordinary file"].concat()),
        Err(why) if why.kind() == ErrorKind::NotFound => Ok(Input { name: name.as_bytes().into(), bytes: Vec::new() }),
        _ => read(name),
    }
}

/// Adds to the end of a file, which is made where it is not there. When this is answered, all of it is on the device.
pub fn append(name: &OsStr, bytes: &[u8]) -> Result<(), Vec<u8>> {
    let made = fs::metadata(name).is_err();
    let added = added(name, bytes).and_then(|()| if made { sync_folder(name) } else { Ok(()) });
    added.map_err(|why| reason(name, &why))
}

/// A write that fails is taken back.
fn added(name: &OsStr, bytes: &[u8]) -> io::Result<()> {
    let mut file = OpenOptions::new().append(true).create(true).open(text(name)?)?;
    let before = file.metadata()?.len();
    if let Err(why) = file.write_all(bytes) {
        file.set_len(before)?;
        return Err(why);
    }
    file.sync_all()
}

/// A file's name is on the device with its folder.
fn sync_folder(name: &OsStr) -> io::Result<()> {
    match Path::new(name).parent() {
        Some(folder) if folder != Path::new("") => File::open(folder)?.sync_all(),
        _ => File::open(".")?.sync_all(),
    }
}

/// A file that exists is left as it is, unless this is forced.
pub fn write(name: &OsStr, bytes: &[u8], force: bool) -> Result<(), Vec<u8>> {
    let mut how = OpenOptions::new();
    how.write(true);
    if force {
        how.create(true).truncate(true);
    } else {
        how.create_new(true);
    }
    text(name).and_then(|name| how.open(name)).and_then(|mut file| file.write_all(bytes)).map_err(|why| match why.kind() {
        ErrorKind::AlreadyExists => [name.as_bytes(), b": exists already; --force writes over it"].concat(),
        _ => reason(name, &why),
    })
}

/// Do both name one file, by whatever way?
pub fn same(one: &OsStr, other: &OsStr) -> bool {
    let [Ok(one), Ok(other)] = [fs::metadata(one), fs::metadata(other)] else { return false };
    (one.dev(), one.ino()) == (other.dev(), other.ino())
}

/// The system's words without its number.
pub fn reason(name: &OsStr, why: &io::Error) -> Vec<u8> {
    let why = why.to_string();
    let words = why.split(" (os error").next().unwrap_or_default();
    [name.as_bytes(), b": ", words.as_bytes()].concat()
}
