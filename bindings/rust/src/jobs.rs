use crate::refusal::refused;
use crate::{border, Allowed, Entry, Graph, Marking, Refusal, Track, Tracked, Written};

/// Sheets.
impl Graph {
    /// The graph of a sheet, and the marking that the job begins with. A sheet of five bodies has a role set for each step; it is
    /// read as a graph in which every step is an action of its own.
    pub fn read(sheet: &[u8]) -> Result<(Graph, Marking), Refusal> {
        let (mut graph, mut marking) = (Graph::bare(0, 0, 0), Marking::default());
        refused(border::read(sheet, &mut graph, &mut marking), 0)?;
        Ok((graph, marking))
    }

    /// Writes a sheet of six bodies into the room, where [`SHEET_BYTES`](crate::SHEET_BYTES) are always enough, and answers how
    /// long it is.
    pub fn write(&self, marking: Marking, room: &mut [u8]) -> Result<usize, Refusal> {
        written(border::write(self, marking, room))
    }
}

/// Writes the sheet of the cabinet's job for a mast with so many arms, 2 to 16, into the room, and answers how long it is:
/// 72 + 15 * arms bytes, at most 312. [`Graph::read`] makes a graph of it.
///
/// Step 0 is the reboot, steps 1 to arms are the checks of the arms, the lowest first, and step arms + 1 publishes. Person
/// 0 holds role 0 and checks, person 1 holds role 1 and publishes, and both may reboot. From the start, and again from every
/// reboot on, each check can be done once, in order; then publishing is open until the next reboot. `ulzhartep.h` says which
/// step does what.
pub fn cabinet(arms: u64, room: &mut [u8]) -> Result<usize, Refusal> {
    written(border::cabinet(arms, room))
}

fn written(Written { number, length }: Written) -> Result<usize, Refusal> {
    refused(number, 0)?;
    Ok(length as usize)
}

/// Rules.
impl Graph {
    /// Is this a graph?
    pub fn check(&self) -> Result<(), Refusal> {
        refused(border::check(self), 0)
    }

    /// Is the entry allowed? Nothing is taken.
    pub fn ask(&self, marking: Marking, entry: Entry) -> Result<(), Refusal> {
        let asked = border::ask(self, marking, entry);
        refused(asked.number, asked.waiting)
    }

    /// The set of all steps that the person may take, each in some role, see [`steps`](crate::steps); the others can
    /// be greyed out. A number that is not below the count of people is nobody's, however large it is.
    pub fn allowed_to(&self, marking: Marking, person: u64) -> Result<u64, Refusal> {
        allowed(border::allowed_to(self, marking, person))
    }

    /// The set of all steps that some person may take.
    pub fn allowed_to_someone(&self, marking: Marking) -> Result<u64, Refusal> {
        allowed(border::allowed_to_someone(self, marking))
    }

    /// Takes a step: asks, and if the entry is allowed gives the marking after. What [`ask`](Graph::ask) refuses is refused here,
    /// with the same refusal, and nothing else is.
    pub fn take(&self, marking: Marking, entry: Entry) -> Result<Marking, Refusal> {
        let moved = border::take(self, marking, entry);
        refused(moved.number, moved.waiting)?;
        Ok(moved.marking)
    }

    /// As [`take`](Graph::take), but an allowed entry changes the marking where it lies; a refused one leaves it.
    pub fn keep(&self, marking: &mut Marking, entry: Entry) -> Result<(), Refusal> {
        let kept = border::keep(self, marking, entry);
        refused(kept.number, kept.waiting)
    }

    /// Is no step at once due and included?
    pub fn finished(&self, marking: Marking) -> Result<bool, Refusal> {
        let ending = border::finished(self, marking);
        refused(ending.number, 0)?;
        Ok(ending.finished == 1)
    }
}

fn allowed(answer: Allowed) -> Result<u64, Refusal> {
    refused(answer.number, 0)?;
    Ok(answer.steps)
}

/// The tracker.
impl Graph {
    /// At the beginning of a job.
    pub fn track_start(&self, marking: Marking) -> Result<Track, Refusal> {
        tracked(border::track_start(self, marking))
    }

    /// A while in which nothing is done.
    pub fn track_idle(&self, track: Track) -> Result<Track, Refusal> {
        tracked(border::track_idle(self, track))
    }

    /// Takes a step at the track's marking, and the tracker goes along.
    pub fn track_step(&self, track: Track, entry: Entry) -> Result<Track, Refusal> {
        tracked(border::track_step(self, track, entry))
    }
}

fn tracked(answer: Tracked) -> Result<Track, Refusal> {
    refused(answer.number, answer.waiting)?;
    Ok(answer.track)
}
