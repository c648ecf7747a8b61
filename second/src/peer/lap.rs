use super::{
    check::{inside, well_formed},
    journal::{entries, entry},
    run::run_entries,
    take::take_entry,
    Refusal,
};
use crate::data::{Graph, Lapped, Marking, Ran, ACCEPTED, STARVED};

/// Judges the stem and then the lap without end. A lap done twice does what it does once, so two laps tell.
pub fn lap(g: &Graph, m: Marking, stem: &[u8], lap: &[u8]) -> Lapped {
    match starved(g, m, stem, lap) {
        Ok(0) => Lapped { verdict: ACCEPTED, ..Lapped::default() },
        Ok(steps) => Lapped { verdict: STARVED, step: steps.trailing_zeros().into(), ..Lapped::default() },
        Err(stopped) => stopped,
    }
}

/// The steps that starve, or why the run does not go on for ever.
fn starved(g: &Graph, m: Marking, stem: &[u8], lap: &[u8]) -> Result<u64, Lapped> {
    well_formed(g)?;
    let (stem, lap) = (entries(stem)?, entries(lap)?);
    inside(g.steps, m)?;
    if lap.is_empty() {
        return Err(Refusal::EmptyLap.into());
    }
    let start = passed(0, run_entries(g, m, stem))?;
    let again = passed(1, run_entries(g, start, lap))?;
    untouched(g, again, lap)
}

/// The marking after a pass.
fn passed(pass: u64, Ran { number, waiting, entries, marking }: Ran) -> Result<Marking, Lapped> {
    if number == 0 {
        Ok(marking)
    } else {
        Err(Lapped { number, waiting, index: entries, pass, ..Lapped::default() })
    }
}

/// The steps that are due and included before every entry of the second lap and that none of them does.
fn untouched(g: &Graph, mut m: Marking, lap: &[[u8; 3]]) -> Result<u64, Lapped> {
    let mut steps = u64::MAX;
    for (index, bytes) in lap.iter().enumerate() {
        let pending = m.due & m.included;
        m = take_entry(g, m, entry(bytes)).map_err(|refusal| {
            let (number, waiting) = (refusal.number(), refusal.waiting());
            Lapped { number, waiting, index: index as u64, pass: 2, ..Lapped::default() }
        })?;
        steps &= pending & !(1 << bytes[1]);
    }
    Ok(steps)
}

impl From<Refusal> for Lapped {
    fn from(refusal: Refusal) -> Lapped {
        Lapped { number: refusal.number(), ..Lapped::default() }
    }
}
