use super::{
    call::Call,
    jobs::File,
    side::{Complaint, Heard, Side},
};
use std::collections::BTreeMap;
use std::fmt::Write;
use std::io;

/// How many differing commands are named; the first is shown whole.
const NAMED: usize = 20;

/// How many lines of a long output are shown, from just before the first that differs.
const SHOWN: usize = 30;

pub struct Report {
    sides: [Side; 2],
    sheets: usize,
    pairs: usize,
    commands: usize,
    differences: usize,
    /// Files of the jobs that neither program could read.
    unread: usize,
    not_used: usize,
    /// How often each number was given.
    numbers: BTreeMap<u64, usize>,
    told: String,
}

/// What came of a call, where both programs say the same.
#[derive(Clone, PartialEq, Eq)]
pub enum Came {
    Different,
    Answered(String),
    /// The number, and the entry.
    Refused(u64, Option<String>),
    /// A fold that was held back.
    Never,
    Failed,
}

impl Report {
    pub fn new(sides: [Side; 2]) -> Self {
        let (sheets, pairs, commands, differences, unread, not_used) = (0, 0, 0, 0, 0, 0);
        let (numbers, told) = (BTreeMap::new(), String::new());
        Report { sides, sheets, pairs, commands, differences, unread, not_used, numbers, told }
    }

    /// Lets both programs answer at the same time, and compares.
    pub fn ask(&mut self, call: Call) -> io::Result<Came> {
        let [one, other] = &self.sides;
        let (first, second) = (one.start(&call)?, other.start(&call)?);
        let heard = [one.finish(&call, first)?, other.finish(&call, second)?];
        self.commands += 1;
        let came = came(&call, &heard);
        match &came {
            Came::Refused(number, _) => *self.numbers.entry(*number).or_default() += 1,
            Came::Different => {
                self.differences += 1;
                self.tell(&call, &heard);
            }
            _ => {}
        }
        Ok(came)
    }

    /// Have both programs written this file?
    pub fn written(&self, name: &str) -> bool {
        self.sides.iter().all(|side| side.folder.join(name).exists())
    }

    pub fn unused(&mut self, files: &[String]) {
        self.not_used = files.len();
        files.iter().for_each(|file| self.line(format_args!("not used: {file}")));
    }

    pub fn sheet(&mut self, sheet: &File, came: Came) {
        self.sheets += 1;
        let said = self.said(came);
        self.line(format_args!("sheet {}: {said}", sheet.shown));
    }

    pub fn pair(&mut self, sheet: &File, journal: &File, came: Came) {
        self.pairs += 1;
        let said = self.said(came);
        self.line(format_args!("pair {} {}: {said}", sheet.shown, journal.shown));
    }

    fn said(&mut self, came: Came) -> String {
        match came {
            Came::Different => "DIFFERENT".into(),
            Came::Answered(line) if line == "sheet: ok" => "ok".into(),
            Came::Answered(line) => format!("ended, {} entries", line.trim_start_matches("entries: ")),
            Came::Refused(number, Some(entry)) => format!("refused with {number} at {entry}"),
            Came::Refused(number, None) => format!("refused with {number}"),
            Came::Never | Came::Failed => {
                self.unread += 1;
                "NOT COMPARED, neither program could read it".into()
            }
        }
    }

    fn line(&mut self, text: std::fmt::Arguments) {
        writeln!(self.told, "{text}").expect("a string has room");
    }

    fn tell(&mut self, call: &Call, heard: &[Heard; 2]) {
        if self.differences > NAMED {
            return;
        }
        self.line(format_args!("DIFFERENT: {}", call.typed()));
        if self.differences == 1 {
            let texts = heard.each_ref().map(|heard| String::from_utf8_lossy(&heard.out).into_owned());
            let from = texts[0].lines().zip(texts[1].lines()).take_while(|(a, b)| a == b).count();
            for (i, (heard, text)) in heard.iter().zip(&texts).enumerate() {
                let name = self.sides[i].name;
                self.line(format_args!("--- {name}, status {}, {}\n{}", heard.status, rest(heard), part(text, from)));
            }
        }
    }

    /// 0 where everything was compared and is alike, 1 where something differs, 2 where something could not be compared.
    pub fn status(&self) -> u8 {
        match self.differences {
            0 if self.unread > 0 || self.pairs == 0 => 2,
            0 => 0,
            _ => 1,
        }
    }

    /// A line for each sheet, each pair and each file that was not used, the differences, the numbers that came, and the count.
    pub fn text(&self) -> Vec<u8> {
        let numbers: Vec<_> = self.numbers.iter().map(|(number, times)| format!("{number} ({times})")).collect();
        let Report { sheets, pairs, commands, differences, unread, not_used, .. } = self;
        let files = format!(
            "{sheets} sheets, {pairs} pairs of sheet and journal, files not used: {not_used}, not read: {unread}"
        );
        let none = if self.pairs == 0 { ", and NO JOURNAL WAS COMPARED" } else { "" };
        let count = format!("{commands} commands, {differences} differences{none}");
        format!("{}refused with {}\n{files}\n{count}\n", self.told, numbers.join(" ")).into()
    }
}

/// They are alike, and each keeps to the form: a complaint is one line, with status 2 and nothing else to be read; only a
/// fold that is held back has lines and a complaint, and only a search that is undecided has lines, status 2 and no
/// complaint. A journal has the entry if it was taken, and is otherwise as it was.
fn came(call: &Call, [one, other]: &[Heard; 2]) -> Came {
    let text = String::from_utf8_lossy(&one.out);
    let never = text.starts_with("never: yes\n");
    let refused = text.lines().find_map(|line| line.strip_prefix("refused: ")?.split(' ').next()?.parse().ok());
    let undecided = text.lines().any(|line| line == "can end: undecided");
    let failed = one.status == 2 && refused.is_none() && !undecided;
    let in_form = if failed {
        matches!(one.err, Complaint::Line(_)) && (one.out.is_empty() || never)
    } else {
        one.err == Complaint::None && (0..=2).contains(&one.status)
    };
    let in_journal = call.journal.as_ref().is_none_or(|journal| one.file == journal.after(one.status == 0));
    match refused {
        _ if one != other || !in_form || !in_journal => Came::Different,
        Some(number) => Came::Refused(number, refused_entry(&text)),
        None if failed && never => Came::Never,
        None if failed => Came::Failed,
        None => Came::Answered(text.lines().next().unwrap_or_default().into()),
    }
}

/// The entry that stands below a refusal.
fn refused_entry(text: &str) -> Option<String> {
    let mut below = text.lines().skip_while(|line| !line.starts_with("refused: "));
    below.find(|line| line.starts_with("entry ")).map(str::to_owned)
}

/// Standard error and the written file, in a few words.
fn rest(heard: &Heard) -> String {
    let file = heard.file.as_ref().map_or("no file".into(), |bytes| {
        let shown: String = bytes.iter().take(100).map(|byte| format!(" {byte:02x}")).collect();
        format!("a file of {} bytes:{shown}", bytes.len())
    });
    format!("standard error {:?}, {file}", heard.err)
}

fn part(text: &str, from: usize) -> String {
    let skipped = from.saturating_sub(SHOWN / 2);
    let lines: Vec<_> = text.lines().collect();
    let mut part = if skipped > 0 { format!("    ... {skipped} lines alike\n") } else { String::new() };
    for line in lines.iter().skip(skipped).take(SHOWN) {
        part += &format!("    {line}\n");
    }
    if lines.len() > skipped + SHOWN {
        part += &format!("    ... {} lines more", lines.len() - skipped - SHOWN);
    }
    part
}
