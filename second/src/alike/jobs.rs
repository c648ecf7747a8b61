use std::ffi::OsStr;
use std::fs;
use std::io;
use std::os::unix::ffi::OsStrExt;
use std::path::{Path, PathBuf};

/// Where the jobs are: NAME.sheet with NAME.*.journal, NAME.*.marking and NAME.*.record in a folder; or a list whose lines name a
/// sheet and a journal.
pub enum Jobs<'a> {
    Folder(&'a Path),
    Listed(&'a Path),
}

/// A file, and how it is called in the report.
#[derive(Clone)]
pub struct File {
    pub path: PathBuf,
    pub shown: String,
}

/// A sheet and what belongs to it.
pub struct Job {
    pub sheet: File,
    pub journals: Vec<File>,
    pub markings: Vec<File>,
    pub records: Vec<File>,
}

/// The jobs, and what was found beside them.
pub struct Found {
    pub jobs: Vec<Job>,
    pub unused: Vec<String>,
}

impl Jobs<'_> {
    pub fn find(&self) -> Result<Found, String> {
        match self {
            Jobs::Folder(folder) => of_folder(folder),
            Jobs::Listed(list) => of_list(list),
        }
    }
}

fn of_folder(folder: &Path) -> Result<Found, String> {
    let why = |why| reason(folder, why);
    let within = folder.canonicalize().map_err(why)?;
    let entries = fs::read_dir(&within).and_then(|all| all.map(|file| Ok(file?.path())).collect::<Result<Vec<_>, _>>());
    let mut files: Vec<File> = entries.map_err(why)?.into_iter().map(in_folder).collect();
    files.sort_by(|one, other| one.path.cmp(&other.path));
    let sheets = files.iter().filter(|file| file.path.is_file() && file.shown.ends_with(".sheet"));
    let jobs: Vec<Job> = sheets.map(|sheet| with_belongings(sheet, &files)).collect();
    if jobs.is_empty() {
        return Err(format!("{}: no sheet is here; a sheet is called NAME.sheet", folder.display()));
    }
    let used = |file: &File| jobs.iter().any(|job| job.files().any(|used| used.path == file.path));
    let unused = files.iter().filter(|file| !used(file)).map(|file| file.shown.clone()).collect();
    Ok(Found { jobs, unused })
}

fn in_folder(path: PathBuf) -> File {
    let shown = path.file_name().map_or(String::new(), |name| name.to_string_lossy().into_owned());
    File { path, shown }
}

fn with_belongings(sheet: &File, files: &[File]) -> Job {
    let start = format!("{}.", sheet.shown.trim_end_matches(".sheet"));
    let belonging = |kind: &str| {
        let belongs =
            |file: &&File| file.path.is_file() && file.shown.starts_with(&start) && file.shown.ends_with(kind);
        files.iter().filter(belongs).cloned().collect()
    };
    let [journals, markings, records] = [".journal", ".marking", ".record"].map(belonging);
    Job { sheet: sheet.clone(), journals, markings, records }
}

/// A line has two names with spaces between, or with one tab where a name has spaces; `#` begins a comment.
fn of_list(list: &Path) -> Result<Found, String> {
    let text = fs::read(list).map_err(|why| reason(list, why))?;
    let mut jobs: Vec<Job> = Vec::new();
    for (number, line) in (1..).zip(text.split(|byte| *byte == b'\n')) {
        let at = |why: String| format!("{}, line {number}: {why}", list.display());
        let names = names(line);
        if names.is_empty() || line.starts_with(b"#") {
            continue;
        }
        let [sheet, journal] = names[..] else { return Err(at("two names are needed, SHEET JOURNAL".into())) };
        let (sheet, journal) = (listed(sheet).map_err(at)?, listed(journal).map_err(at)?);
        match jobs.iter_mut().find(|job| job.sheet.path == sheet.path) {
            Some(job) => job.journals.push(journal),
            None => jobs.push(Job { sheet, journals: vec![journal], markings: Vec::new(), records: Vec::new() }),
        }
    }
    if jobs.is_empty() {
        return Err(format!("{}: no line names a sheet and a journal", list.display()));
    }
    Ok(Found { jobs, unused: Vec::new() })
}

fn names(line: &[u8]) -> Vec<&[u8]> {
    let line = line.trim_ascii_end();
    if line.contains(&b'\t') {
        return line.split(|byte| *byte == b'\t').collect();
    }
    line.split(|byte| *byte == b' ').filter(|name| !name.is_empty()).collect()
}

fn listed(name: &[u8]) -> Result<File, String> {
    let name = Path::new(OsStr::from_bytes(name));
    let path = name.canonicalize().map_err(|why| reason(name, why))?;
    Ok(File { path, shown: name.to_string_lossy().into_owned() })
}

/// The system's words without its number.
pub fn reason(name: &Path, why: io::Error) -> String {
    let why = why.to_string();
    format!("{}: {}", name.display(), why.split(" (os error").next().unwrap_or_default())
}

impl Job {
    fn files(&self) -> impl Iterator<Item = &File> {
        [&self.journals, &self.markings, &self.records].into_iter().flatten().chain([&self.sheet])
    }
}
