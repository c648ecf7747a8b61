//! Two programs with the same commands, side by side over sheets with their journals, markings and records.

mod asking;
mod cabinet;
pub(crate) mod call;
mod ends;
mod entries;
mod jobs;
mod play;
pub(crate) mod report;
mod sheets;
pub(crate) mod side;
mod uses;

pub use jobs::Jobs;
pub use report::Report;

use jobs::reason;
use play::Play;
use side::Side;
use std::path::Path;

/// What the programs write goes into two folders in `work`. An error says why nothing can be compared.
pub fn alike(ulz: &Path, second: &Path, jobs: &Jobs, work: &Path) -> Result<Report, String> {
    let found = jobs.find()?;
    let side = |name, program: &Path| Side::new(name, program, work).map_err(|why| reason(program, why));
    let mut report = Report::new([side("ulz", ulz)?, side("second", second)?]);
    report.unused(&found.unused);
    for (index, job) in found.jobs.iter().enumerate() {
        let played = Play { job, index }.all(&mut report);
        played.map_err(|why| reason(job.sheet.shown.as_ref(), why))?;
    }
    sheets::play(&work.join("sheets"), &mut report).map_err(|why| format!("sheets alone: {why}"))?;
    entries::play(&work.join("entries"), &mut report).map_err(|why| format!("entries after journals: {why}"))?;
    ends::play(&work.join("ends"), &mut report).map_err(|why| format!("jobs that can end or cannot: {why}"))?;
    cabinet::play(&work.join("cabinet"), &mut report).map_err(|why| format!("masts and their sheets: {why}"))?;
    uses::play(&work.join("uses"), &mut report).map_err(|why| format!("right and wrong use: {why}"))?;
    Ok(report)
}
