use super::{
    files::Input, findings, journals, lines::Lines, markings::stored, never::because, sheets::read, Answer, Given,
    Reply,
};
use crate::data::{self, Moved};
use crate::model::{self, Marking};

/// The most steps that a graph has.
const MOST: u64 = 64;

pub fn fold(given: &Given) -> Reply {
    let [sheet, journal] = given.files();
    let (g, _) = read(sheet)?;
    let folded = model::record::fold(&g, journal);
    let bytes = folded.map_err(|number| Lines::refused_for(number, journal, findings::journal(journal)))?;
    let never = because(&g, journal)
        .map(|(at, why)| Lines::default().say("never", "yes").say("because", format_args!("entry {at}: {why}")));
    Ok(Answer { never, ..told(g.steps, bytes)? })
}

pub fn join(given: &Given) -> Reply {
    let (n, [first, second]) = (given.n, given.files());
    let bytes = model::record::join(n, first, second).map_err(|number| match number {
        10 => {
            let wrong = if findings::record(n, first).is_some() { first } else { second };
            Lines::refused_for(number, wrong, findings::record(n, wrong))
        }
        _ => Lines::refused(number).finding(findings::stated(n)),
    })?;
    told(n, bytes)
}

/// A record that a call has answered, and its bytes.
fn told(n: u64, bytes: [u8; 65]) -> Reply {
    let record = model::record::read(n, &bytes).map_err(Lines::refused)?;
    Ok(Answer { bytes: bytes.into(), ..Answer::new(Lines::default().record(&record)) })
}

pub fn record(given: &Given) -> Reply {
    let [from] = given.files();
    let record = model::record::read(MOST, from);
    let record = record.map_err(|number| Lines::refused_for(number, from, findings::record(MOST, from)))?;
    Ok(Answer::new(Lines::default().record(&record)))
}

pub fn apply(given: &Given) -> Reply {
    let (n, [record, marking]) = (given.n, given.files());
    let start = stored(marking);
    let Moved { number, marking: end, .. } = model::record::apply(n, record, start);
    match number {
        0 => Ok(Answer { bytes: end.bytes(), ..Answer::new(Lines::default().marking(&Marking::read(end))) }),
        8 => Err(Lines::refused_for(number, marking, findings::marking(start, n))),
        10 | 16 => Err(refused(number, n, record, start)),
        _ => Err(Lines::refused(number).finding(findings::stated(n))),
    }
}

pub fn restore(given: &Given) -> Reply {
    let [sheet, record, journal] = given.files();
    let (g, m) = read(sheet)?;
    let ran = model::record::restore(&g, record, journal, m.write());
    if let 10 | 16 = ran.number {
        return Err(refused(ran.number, g.steps, record, m.write()));
    }
    let (lines, end) = journals::told(&g, ran, journal)?;
    Ok(Answer { bytes: ran.marking.bytes(), ..Answer::new(lines.ending(&end)) })
}

/// A record that is not well-formed; or, with 16, one that does not apply to the marking.
fn refused(number: u64, n: u64, record: &Input, at: data::Marking) -> Lines {
    match model::record::read(n, record) {
        Ok(r) => Lines::refused_for(number, record, findings::unapplied(&r, at)).marking(&Marking::read(at)),
        Err(_) => Lines::refused_for(number, record, findings::record(n, record)),
    }
}
