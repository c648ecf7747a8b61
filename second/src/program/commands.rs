use super::{asking, ends, journals, markings, may, records, sheets, Given, Reply};

pub struct Command {
    pub name: &'static str,
    /// N, MARKINGS and ARMS are numbers, PERSON, STEP and ROLE are an entry, OUT is a file that is written; the others are files that
    /// are read. What stands in brackets may be left out.
    pub takes: &'static str,
    /// Besides --force, which goes with OUT.
    pub options: &'static [&'static str],
    pub says: &'static str,
    pub answer: fn(&Given) -> Reply,
}

impl Command {
    pub fn named(name: &[u8]) -> Option<&'static Command> {
        COMMANDS.iter().find(|command| command.name.as_bytes() == name)
    }

    /// Its answer is added to the journal, which need not be there.
    pub fn adds(&self) -> bool {
        self.name == "take"
    }

    pub fn has_option(&self, option: &str) -> bool {
        self.options.contains(&option) || option == "--force" && self.takes.contains("OUT")
    }

    /// The command with its arguments and options.
    pub fn usage(&self) -> String {
        let force = if self.takes.contains("OUT") { " [--force]" } else { "" };
        let options: String = self.options.iter().map(|option| format!(" [{}]", with_value(option))).collect();
        format!("second {} {}{force}{options}", self.name, self.takes)
    }
}

fn with_value(option: &str) -> &str {
    if option == "--from" {
        "--from MARKING"
    } else {
        option
    }
}

const fn command(
    name: &'static str,
    takes: &'static str,
    options: &'static [&'static str],
    says: &'static str,
    answer: fn(&Given) -> Reply,
) -> Command {
    Command { name, takes, options, says, answer }
}

const ENTRY: &str = "SHEET JOURNAL PERSON STEP ROLE";

pub static COMMANDS: [Command; 19] = [
    command("check", "SHEET", &[], "is the sheet one?", sheets::check),
    command("show", "SHEET", &[], "what the sheet holds", sheets::show),
    command("write", "SHEET OUT", &[], "the sheet, read and written again", sheets::write),
    command(
        "cabinet",
        "ARMS OUT",
        &[],
        "the sheet of the cabinet's job, for a mast with so many arms",
        sheets::cabinet,
    ),
    command(
        "may",
        "SHEET JOURNAL [PERSON]",
        &["--from"],
        "who may take which step after the journal, or which PERSON may",
        may::may,
    ),
    command("ask", ENTRY, &["--from"], "is the entry allowed after the journal?", asking::ask),
    command("take", ENTRY, &["--from"], "the same, and an allowed entry is added to the journal", asking::take),
    command("run", "SHEET JOURNAL [OUT]", &["--from"], "where the journal leads", journals::run),
    command("finished", "SHEET JOURNAL", &["--status"], "is the job finished after the journal?", journals::finished),
    command(
        "ends",
        "SHEET JOURNAL [MARKINGS]",
        &["--from", "--status"],
        "can the job still end after the journal, and in how many entries?",
        ends::ends,
    ),
    command("fold", "SHEET JOURNAL OUT", &["--never"], "the journal's record", records::fold),
    command("join", "N RECORD RECORD OUT", &[], "one record for two", records::join),
    command("apply", "N RECORD MARKING [OUT]", &[], "what the record makes of the marking", records::apply),
    command("restore", "SHEET RECORD JOURNAL [OUT]", &[], "a record, then the rest of a journal", records::restore),
    command("record", "RECORD", &[], "what the record needs and does", records::record),
    command("marking", "MARKING", &[], "the three sets of a marking", markings::marking),
    command("entries", "JOURNAL", &[], "the entries of a journal", journals::entries),
    command("lap", "SHEET STEM LAP", &["--from", "--status"], "a stem, then a lap without end", journals::lap),
    command("track", "SHEET JOURNAL", &["--from"], "the tracker along the journal", journals::track),
];
