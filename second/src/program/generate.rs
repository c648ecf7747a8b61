use super::files::{reason, write};
use crate::cases::{jobs, Dice};
use std::path::Path;

/// Writes so many jobs into a folder: NAME.sheet, NAME.1.journal to NAME.4.journal, NAME.1.marking, NAME.1.record. The same seed
/// gives the same files. Answers how many files there are.
pub fn generate(folder: &Path, count: u64, seed: u64) -> Result<usize, Vec<u8>> {
    std::fs::create_dir_all(folder).map_err(|why| reason(folder.as_os_str(), &why))?;
    let mut files = 0;
    for index in 0..count {
        let jobs::Job { sheet, journals, marking, record } = jobs::make(&mut Dice::new(seed, index), index);
        let [one, two, three, four] = journals;
        for (kind, bytes) in [
            ("sheet", sheet),
            ("1.journal", one),
            ("2.journal", two),
            ("3.journal", three),
            ("4.journal", four),
            ("1.marking", marking),
            ("1.record", record),
        ] {
            let file = folder.join(format!("{index:05}.{kind}"));
            write(file.as_os_str(), &bytes, false)?;
            files += 1;
        }
    }
    Ok(files)
}
