use super::{
    entries::AnyEntry,
    files::Input,
    findings,
    lines::{flag, rank_and_flag, Lines},
    markings::stored,
    sheets::read,
    Answer, Given, Reply, Said,
};
use crate::data::{self, Entry, Lapped, Ran, Tracked, ACCEPTED};
use crate::model::{self, Graph, Marking};

pub fn run(given: &Given) -> Reply {
    let [sheet, journal] = given.files();
    let (g, start) = begun(given, sheet, &[journal])?;
    let ran = model::run(&g, start, journal);
    let (lines, end) = told(&g, ran, journal)?;
    Ok(Answer { bytes: ran.marking.bytes(), ..Answer::new(lines.ending(&end)) })
}

/// The graph, and the marking to start from. 7 comes before 8: where a journal will be refused the marking is any.
pub fn begun(given: &Given, sheet: &Input, journals: &[&Input]) -> Result<(Graph, data::Marking), Lines> {
    let (g, first) = read(sheet)?;
    if journals.iter().any(|journal| findings::journal(journal).is_some()) {
        return Ok((g, first.write()));
    }
    let start = start(given, &g, first)?;
    Ok((g, start))
}

/// The sheet's marking, or the one that was named instead.
pub fn start(given: &Given, g: &Graph, first: Marking) -> Result<data::Marking, Lines> {
    let Some(from) = &given.from else { return Ok(first.write()) };
    let start = stored(from);
    match findings::marking(start, g.steps) {
        Some(finding) => Err(Lines::refused_for(8, from, Some(finding))),
        None => Ok(start),
    }
}

pub fn finished(given: &Given) -> Reply {
    let [sheet, journal] = given.files();
    let (g, m) = read(sheet)?;
    let (_, end) = told(&g, model::run(&g, m.write(), journal), journal)?;
    let said = if end.pending().is_empty() { Said::Yes } else { Said::No };
    Ok(Answer { said, ..Answer::new(Lines::default().ending(&end)) })
}

pub fn entries(given: &Given) -> Reply {
    let [journal] = given.files();
    let entries = all(journal)?;
    let lines = Lines::default().say("entries", entries.len());
    Ok(Answer::new((0..).zip(entries).fold(lines, |lines, (i, entry)| lines.entry(i, entry))))
}

fn all(journal: &Input) -> Result<Vec<Entry>, Lines> {
    model::entries(journal).ok_or_else(|| Lines::refused_for(7, journal, findings::journal(journal)))
}

/// The lines of a run without the ending, and the end marking.
pub fn told(g: &Graph, ran: Ran, journal: &Input) -> Result<(Lines, Marking), Lines> {
    let Ran { number, waiting, entries, marking } = ran;
    let m = Marking::read(marking);
    match number {
        0 => Ok((Lines::default().say("entries", entries).marking(&m), m)),
        11..=15 => {
            let entry = entry(journal, entries);
            let lines = Lines::refused_for(number, journal, findings::entry(g, &m, entry));
            Err(lines.refused_entry(entries, entry, number, waiting).marking(&m))
        }
        7 => Err(Lines::refused_for(number, journal, findings::journal(journal))),
        _ => Err(Lines::refused(number)),
    }
}

fn entry(journal: &[u8], index: u64) -> Entry {
    let bytes = &journal[3 * index as usize..];
    Entry { person: bytes[0], step: bytes[1], role: bytes[2] }
}

pub fn track(given: &Given) -> Reply {
    let [sheet, journal] = given.files();
    let (g, start) = begun(given, sheet, &[journal])?;
    let entries = all(journal)?;
    let mut at = model::track_start(&g, start).track;
    let mut lines = Lines::default().say("start", rank_and_flag(at));
    for (index, entry) in (0..).zip(entries) {
        let Tracked { number, waiting, track } = model::track_entry(&g, at, entry);
        if number != 0 {
            let finding = findings::entry(&g, &Marking::read(at.marking), entry);
            let Lines(refused) =
                Lines::refused_for(number, journal, finding).refused_entry(index, entry, number, waiting);
            let lines = Lines([lines.0, refused].concat()).say("rank", at.rank).say("flag", flag(at));
            return Err(lines.marking(&Marking::read(at.marking)));
        }
        at = track;
        lines =
            lines.say(format_args!("entry {index}"), format_args!("{}, {}", AnyEntry::from(entry), rank_and_flag(at)));
    }
    Ok(Answer::new(lines.marking(&Marking::read(at.marking))))
}

pub fn lap(given: &Given) -> Reply {
    let [sheet, stem, lap] = given.files();
    let (g, start) = begun(given, sheet, &[stem, lap])?;
    let Lapped { number, waiting, verdict, step, index, pass } = model::lap(&g, start, stem, lap);
    match number {
        0 if verdict == ACCEPTED => Ok(Answer::new(Lines::default().say("verdict", "accepted"))),
        0 => {
            let lines = Lines::default().say("verdict", "starved").say("starved step", step);
            Ok(Answer { said: Said::No, ..Answer::new(lines) })
        }
        11..=15 => {
            let (name, journal) = named(pass, stem, lap);
            let entry = entry(journal, index);
            let before = before(&g, start, stem, lap, pass, index);
            let lines = Lines::refused_for(number, journal, findings::entry(&g, &before, entry));
            let lines = lines.say("pass", format_args!("{pass}, {name}"));
            Err(lines.refused_entry(index, entry, number, waiting))
        }
        7 => {
            let wrong = if findings::journal(stem).is_some() { stem } else { lap };
            Err(Lines::refused_for(number, wrong, findings::journal(wrong)))
        }
        17 => Err(Lines::refused_for(number, lap, findings::lap(lap))),
        _ => Err(Lines::refused(number)),
    }
}

/// The marking before the entry that ends a lap.
fn before(g: &Graph, start: data::Marking, stem: &[u8], lap: &[u8], pass: u64, index: u64) -> Marking {
    let passed: Vec<u8> = match pass {
        0 => stem[..3 * index as usize].to_vec(),
        _ => [stem, &lap.repeat(pass as usize - 1), &lap[..3 * index as usize]].concat(),
    };
    let taken = passed.chunks(3).map(|entry| Entry { person: entry[0], step: entry[1], role: entry[2] });
    Marking::read(taken.fold(start, |m, entry| model::take(g, m, entry).marking))
}

/// What a pass is called, and the journal that it goes through.
fn named<'a>(pass: u64, stem: &'a Input, lap: &'a Input) -> (&'static str, &'a Input) {
    match pass {
        0 => ("stem", stem),
        1 => ("first lap", lap),
        2 => ("second lap", lap),
        _ => ("later lap", lap),
    }
}
