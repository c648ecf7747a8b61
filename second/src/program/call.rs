use super::{
    commands::Command,
    entries::AnyEntry,
    files::{self, Input},
    help,
    words::{number, operands, sorted, Operands, Words},
    Answer, Given, Lines, Said,
};
use std::ffi::{OsStr, OsString};
use std::os::unix::ffi::OsStrExt;

/// What a call has to say: on standard output, on standard error, and by its exit status, which is 0 when it is answered, 1 when
/// it is refused with a number, and 2 for anything else.
#[derive(Clone, PartialEq, Eq, Debug, Default)]
pub struct Told {
    pub out: Vec<u8>,
    pub err: Vec<u8>,
    pub status: u8,
}

const ASKED: &str = "--status";

pub fn call(words: &[OsString]) -> Told {
    sorted(words).and_then(|words| answered(&words)).unwrap_or_else(|why| complaint(&why))
}

/// A name may hold an end of line, and there is to be one line.
pub fn complaint(why: &[u8]) -> Told {
    let err = [b"second: ", &files::shown(why)[..], b"\n"].concat();
    Told { err, status: 2, ..Told::default() }
}

fn said(text: impl Into<Vec<u8>>) -> Told {
    Told { out: text.into(), ..Told::default() }
}

fn answered(words: &Words) -> Result<Told, Vec<u8>> {
    let name = words.operands.first().map(|name| name.as_bytes());
    match name {
        _ if words.version => return Ok(said(help::VERSION)),
        Some(b"help") => return helped(words.operands.get(1).copied()),
        None if words.help => return helped(None),
        None => return Err(b"no command; 'second help' lists them".to_vec()),
        _ => {}
    }
    let command = named(words.operands[0])?;
    if words.help {
        return Ok(said(help::help_of(command)));
    }
    if let Some(option) = words.options.iter().find(|option| !command.has_option(option)) {
        return Err(format!("{option}: 'second {}' takes no such option", command.name).into());
    }
    let operands = operands(command, words).ok_or_else(|| format!("usage: {}", command.usage()))?;
    let given = given(&operands, words.from)?;
    let reply = (command.answer)(&given);
    let asked = words.options.contains(&ASKED);
    match reply {
        Err(Lines(out)) => Ok(Told { out, err: Vec::new(), status: if asked { 2 } else { 1 } }),
        Ok(Answer { never: Some(why), .. }) if !words.options.contains(&"--never") => Ok(held_back(why)),
        Ok(answer) => {
            let status = if asked { status(answer.said) } else { 0 };
            let Lines(out) = written(answer, &operands, words.options.contains(&"--force"))?;
            Ok(Told { out, err: Vec::new(), status })
        }
    }
}

fn status(said: Said) -> u8 {
    match said {
        Said::Yes => 0,
        Said::No => 1,
        Said::Undecided => 2,
    }
}

fn helped(of: Option<&OsStr>) -> Result<Told, Vec<u8>> {
    match of {
        Some(name) => Ok(said(help::help_of(named(name)?))),
        None => Ok(said(help::help())),
    }
}

fn named(name: &OsStr) -> Result<&'static Command, Vec<u8>> {
    Command::named(name.as_bytes()).ok_or_else(|| {
        let nearest = help::nearest(name.as_bytes());
        let hint = format!(": unknown command; did you mean '{nearest}'? 'second help' lists them");
        [name.as_bytes(), hint.as_bytes()].concat()
    })
}

fn given(operands: &Operands, from: Option<&OsStr>) -> Result<Given, Vec<u8>> {
    let entry = numbers(&operands.entry, b": a person, step or role is a number, digits 0 to 9 alone")?;
    let markings = numbers(operands.markings.as_slice(), b": MARKINGS is a number, digits 0 to 9 alone")?;
    let arms = numbers(operands.arms.as_slice(), b": ARMS is a number, digits 0 to 9 alone")?;
    if operands.added_to.is_some_and(|name| name == "-") {
        return Err(b"-: the journal is a file, and has to be named".to_vec());
    }
    if let Some(out) = operands.out.or(operands.added_to) {
        let read = operands.inputs.iter().map(|(_, name)| *name);
        if read.chain(from).any(|name| files::same(name, out)) {
            return Err([out.as_bytes(), b": is read by this call, and is not written over"].concat());
        }
    }
    let read = operands.inputs.iter().map(|(kind, name)| input(kind, name));
    let files = read.chain(operands.added_to.map(files::read_if_there)).collect::<Result<_, _>>()?;
    let from = from.map(|name| input("MARKING", name)).transpose()?;
    let [person, markings, arms] = [&entry, &markings, &arms].map(|numbers| numbers.first().copied());
    // Where the command takes none, they are any.
    let arms = arms.unwrap_or_default();
    Ok(Given { n: operands.n, entry: any_entry(&entry), person, markings, arms, files, from })
}

/// What each of these words says, or that one of them is wrong.
fn numbers(words: &[&OsStr], wrong: &[u8]) -> Result<Vec<u64>, Vec<u8>> {
    words.iter().map(|word| number(word).ok_or_else(|| [word.as_bytes(), wrong].concat())).collect()
}

/// Where the command takes none, it is any.
fn any_entry(numbers: &[u64]) -> AnyEntry {
    match *numbers {
        [person, step, role] => AnyEntry { person, step, role },
        _ => AnyEntry::default(),
    }
}

fn input(kind: &str, name: &OsStr) -> Result<Input, Vec<u8>> {
    let input = files::read(name)?;
    if kind == "MARKING" && input.len() != 24 {
        return Err([name.as_bytes(), b": a marking has 24 bytes"].concat());
    }
    Ok(input)
}

/// Writes the file, if there is to be one, and says so after the other lines; or adds to it, which the lines say.
fn written(answer: Answer, operands: &Operands, force: bool) -> Result<Lines, Vec<u8>> {
    if let Some(journal) = operands.added_to {
        files::append(journal, &answer.bytes)?;
    }
    let Some(out) = operands.out else { return Ok(answer.lines) };
    files::write(out, &answer.bytes, force)?;
    Ok(answer.lines.say("wrote", format_args!("{} bytes", answer.bytes.len())))
}

/// A record that is never and was not asked for.
fn held_back(Lines(out): Lines) -> Told {
    let why = b"fold: no marking lets this journal pass, nothing is written; --never writes the record that says so";
    Told { out, ..complaint(why) }
}
