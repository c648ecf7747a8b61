use super::commands::Command;
use std::ffi::{OsStr, OsString};
use std::os::unix::ffi::OsStrExt;

/// The words of a call by what they are. What begins with `-` and is more than that is an option, up to `--`.
#[derive(Default)]
pub struct Words<'a> {
    pub operands: Vec<&'a OsStr>,
    pub options: Vec<&'static str>,
    pub from: Option<&'a OsStr>,
    pub help: bool,
    pub version: bool,
}

const OPTIONS: [&str; 3] = ["--force", "--never", "--status"];

/// Or what is wrong with them.
pub fn sorted(words: &[OsString]) -> Result<Words<'_>, Vec<u8>> {
    let mut sorted = Words::default();
    let mut words = words.iter().map(OsString::as_os_str);
    while let Some(word) = words.next() {
        match word.as_bytes() {
            b"--" => sorted.operands.extend(words.by_ref()),
            b"-h" | b"--help" => sorted.help = true,
            b"--version" => sorted.version = true,
            b"--from" if sorted.from.is_none() => {
                sorted.from = Some(words.next().ok_or(b"--from: a marking is missing".to_vec())?);
                sorted.options.push("--from");
            }
            option @ [b'-', _, ..] => {
                let known = OPTIONS.into_iter().find(|known| known.as_bytes() == option);
                sorted.options.push(known.ok_or_else(|| [option, b": unknown option"].concat())?);
            }
            _ => sorted.operands.push(word),
        }
    }
    Ok(sorted)
}

/// The operands behind the command: a number, the words of an entry or of a person alone, that of a store's markings or of
/// a mast's arms, files to be read, and a file to be written or added to.
#[derive(Default)]
pub struct Operands<'a> {
    pub n: u64,
    pub entry: Vec<&'a OsStr>,
    pub markings: Option<&'a OsStr>,
    pub arms: Option<&'a OsStr>,
    pub inputs: Vec<(&'static str, &'a OsStr)>,
    pub out: Option<&'a OsStr>,
    pub added_to: Option<&'a OsStr>,
}

/// Nothing where they are not what the command takes.
pub fn operands<'a>(command: &Command, words: &Words<'a>) -> Option<Operands<'a>> {
    let takes: Vec<&'static str> = command.takes.split(' ').collect();
    let needed = takes.iter().filter(|kind| !kind.starts_with('[')).count();
    let given = &words.operands[1..];
    let mut operands = Operands::default();
    for (kind, word) in takes.iter().zip(given) {
        match *kind {
            "N" => operands.n = number(word)?,
            "PERSON" | "[PERSON]" | "STEP" | "ROLE" => operands.entry.push(word),
            "[MARKINGS]" => operands.markings = Some(word),
            "ARMS" => operands.arms = Some(word),
            "OUT" | "[OUT]" => operands.out = Some(word),
            "JOURNAL" if command.adds() => operands.added_to = Some(word),
            kind => operands.inputs.push((kind, word)),
        }
    }
    let read = operands.inputs.iter().map(|(_, name)| *name).chain(operands.added_to).chain(words.from);
    let from_standard_input = read.filter(|name| *name == "-").count();
    let fits = (needed..=takes.len()).contains(&given.len()) && from_standard_input <= 1;
    let names_out = operands.out.map_or(!words.options.contains(&"--force"), |name| name != "-");
    (fits && names_out).then_some(operands)
}

/// A number that is too large for a word is taken as the largest, and so refused.
pub fn number(word: &OsStr) -> Option<u64> {
    let word = word.to_str()?;
    let digits = !word.is_empty() && word.bytes().all(|byte| byte.is_ascii_digit());
    digits.then(|| word.parse().unwrap_or(u64::MAX))
}
