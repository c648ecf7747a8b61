//! The 23 calls as `ulzhartep.h` declares them: the one file of the crate that has to be believed about foreign code.
//!
//! Markings, entries and tracks go by value, a graph or a record as a pointer to it, bytes of any number as a pointer and their
//! length. The calls keep none of what is lent, and write only to what is lent by `&mut` or `*mut`. A call is safe where no
//! pointer is bare.

use crate::{
    Allowed, Asked, Ending, Ends, Entry, Graph, Kept, Lapped, Marking, Moved, Ran, Record, Track, Tracked, Walked,
    Written,
};

unsafe extern "C" {
    #[link_name = "ulz_check"]
    pub safe fn check(graph: &Graph) -> u64;
    #[link_name = "ulz_ask"]
    pub safe fn ask(graph: &Graph, marking: Marking, entry: Entry) -> Asked;
    #[link_name = "ulz_allowed_to"]
    pub safe fn allowed_to(graph: &Graph, marking: Marking, person: u64) -> Allowed;
    #[link_name = "ulz_allowed_to_someone"]
    pub safe fn allowed_to_someone(graph: &Graph, marking: Marking) -> Allowed;
    #[link_name = "ulz_take"]
    pub safe fn take(graph: &Graph, marking: Marking, entry: Entry) -> Moved;
    #[link_name = "ulz_finished"]
    pub safe fn finished(graph: &Graph, marking: Marking) -> Ending;
    #[link_name = "ulz_keep"]
    pub safe fn keep(graph: &Graph, marking: &mut Marking, entry: Entry) -> Kept;
    #[link_name = "ulz_track_start"]
    pub safe fn track_start(graph: &Graph, marking: Marking) -> Tracked;
    #[link_name = "ulz_track_idle"]
    pub safe fn track_idle(graph: &Graph, track: Track) -> Tracked;
    #[link_name = "ulz_track_step"]
    pub safe fn track_step(graph: &Graph, track: Track, entry: Entry) -> Tracked;

    fn ulz_run(graph: &Graph, marking: Marking, journal: *const u8, length: usize) -> Ran;
    fn ulz_walk(journal: *const u8, length: usize, place: u64) -> Walked;
    fn ulz_fold(graph: &Graph, journal: *const u8, length: usize, out: &mut [u8; 65]) -> u64;
    fn ulz_join(n: u64, a: *const u8, a_length: usize, b: *const u8, b_length: usize, out: &mut [u8; 65]) -> u64;
    fn ulz_apply(n: u64, record: *const u8, length: usize, marking: Marking) -> Moved;
    fn ulz_record_read(n: u64, bytes: *const u8, length: usize, record: &mut Record) -> u64;
    fn ulz_record_write(n: u64, record: &Record, room: *mut u8, length: usize) -> Written;
    fn ulz_restore(
        graph: &Graph,
        record: *const u8,
        record_length: usize,
        journal: *const u8,
        length: usize,
        marking: Marking,
    ) -> Ran;
    fn ulz_read(sheet: *const u8, length: usize, graph: &mut Graph, marking: &mut Marking) -> u64;
    fn ulz_write(graph: &Graph, marking: Marking, room: *mut u8, length: usize) -> Written;
    fn ulz_cabinet(arms: u64, room: *mut u8, length: usize) -> Written;
    fn ulz_lap(
        graph: &Graph,
        marking: Marking,
        stem: *const u8,
        stem_length: usize,
        lap: *const u8,
        lap_length: usize,
    ) -> Lapped;
    fn ulz_can_end(graph: &Graph, marking: Marking, store: *mut u8, length: usize) -> Ends;
}

// SAFETY, for each of these: pointer and length are those of one slice.

#[inline]
pub fn run(graph: &Graph, marking: Marking, journal: &[u8]) -> Ran {
    unsafe { ulz_run(graph, marking, journal.as_ptr(), journal.len()) }
}

#[inline]
pub fn walk(journal: &[u8], place: u64) -> Walked {
    unsafe { ulz_walk(journal.as_ptr(), journal.len(), place) }
}

#[inline]
pub fn fold(graph: &Graph, journal: &[u8], out: &mut [u8; 65]) -> u64 {
    unsafe { ulz_fold(graph, journal.as_ptr(), journal.len(), out) }
}

#[inline]
pub fn join(n: u64, a: &[u8], b: &[u8], out: &mut [u8; 65]) -> u64 {
    unsafe { ulz_join(n, a.as_ptr(), a.len(), b.as_ptr(), b.len(), out) }
}

#[inline]
pub fn apply(n: u64, record: &[u8], marking: Marking) -> Moved {
    unsafe { ulz_apply(n, record.as_ptr(), record.len(), marking) }
}

#[inline]
pub fn record_read(n: u64, bytes: &[u8], record: &mut Record) -> u64 {
    unsafe { ulz_record_read(n, bytes.as_ptr(), bytes.len(), record) }
}

#[inline]
pub fn record_write(n: u64, record: &Record, room: &mut [u8]) -> Written {
    unsafe { ulz_record_write(n, record, room.as_mut_ptr(), room.len()) }
}

#[inline]
pub fn restore(graph: &Graph, record: &[u8], journal: &[u8], marking: Marking) -> Ran {
    unsafe { ulz_restore(graph, record.as_ptr(), record.len(), journal.as_ptr(), journal.len(), marking) }
}

#[inline]
pub fn read(sheet: &[u8], graph: &mut Graph, marking: &mut Marking) -> u64 {
    unsafe { ulz_read(sheet.as_ptr(), sheet.len(), graph, marking) }
}

#[inline]
pub fn write(graph: &Graph, marking: Marking, room: &mut [u8]) -> Written {
    unsafe { ulz_write(graph, marking, room.as_mut_ptr(), room.len()) }
}

#[inline]
pub fn cabinet(arms: u64, room: &mut [u8]) -> Written {
    unsafe { ulz_cabinet(arms, room.as_mut_ptr(), room.len()) }
}

#[inline]
pub fn lap(graph: &Graph, marking: Marking, stem: &[u8], lap: &[u8]) -> Lapped {
    unsafe { ulz_lap(graph, marking, stem.as_ptr(), stem.len(), lap.as_ptr(), lap.len()) }
}

#[inline]
pub fn can_end(graph: &Graph, marking: Marking, store: &mut [u8]) -> Ends {
    unsafe { ulz_can_end(graph, marking, store.as_mut_ptr(), store.len()) }
}
