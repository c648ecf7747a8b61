use super::{all, beyond, length, number, see, Finding, Look};
use crate::data::{self, Record};
use crate::model::{members, Marking};
use crate::program::lines::set;
use std::collections::BTreeSet;

/// Number 2 of a stated number of steps. One that is too large for a word was taken as the largest.
pub fn stated(n: u64) -> Option<Finding> {
    let more = if n == u64::MAX { " or more" } else { "" };
    see((1..=64).contains(&n), format_args!("N is {n}{more}"), "1 to 64").err()
}

const SETS: [&str; 8] = ["NeedIn", "NeedEx", "NeedOutOrEx", "Done", "DueSet", "DueClear", "InSet", "InClear"];

/// No step is in both sets of a pair.
const APART: [(&str, &str); 6] = [
    ("NeedIn", "NeedOutOrEx"),
    ("NeedEx", "NeedOutOrEx"),
    ("Done", "NeedEx"),
    ("InSet", "NeedIn"),
    ("InSet", "InClear"),
    ("DueSet", "DueClear"),
];

/// Number 10, for n steps.
pub fn record(n: u64, bytes: &[u8]) -> Option<Finding> {
    ill_formed(n, bytes).err()
}

fn ill_formed(n: u64, bytes: &[u8]) -> Look {
    see(bytes.len() == 65, length(bytes), 65)?;
    see(bytes[0] <= 1, format_args!("byte 0 is {}", bytes[0]), "1 for never, 0 otherwise")?;
    let sets: Vec<(&str, u64)> = SETS.into_iter().zip(bytes[1..].chunks(8).map(number)).collect();
    let within = |count: u64, of: &str, expected: &str| {
        sets.iter().try_for_each(|&(name, stored)| {
            let beyond = beyond(stored, count);
            see(beyond.is_empty(), format_args!("steps {} in {name}{of}", set(&beyond)), expected)
        })
    };
    if bytes[0] == 1 {
        within(0, " of a record that is never", "every set empty")?;
    }
    within(n, "", &all("steps", n))?;
    let named = |name| sets.iter().find(|(set, _)| *set == name).map_or(0, |(_, stored)| *stored);
    APART.into_iter().try_for_each(|(one, other)| {
        let shared = members(named(one) & named(other));
        see(shared.is_empty(), format_args!("steps {} in {one} and in {other}", set(&shared)), "no step in both")
    })
}

/// Number 16.
pub fn unapplied(r: &Record, m: data::Marking) -> Option<Finding> {
    not_applied(r, m).err()
}

fn not_applied(r: &Record, m: data::Marking) -> Look {
    see(r.never == 0, "a record that is never", "one that some marking suits")?;
    let m = Marking::read(m);
    let missing = |need: u64, is: &dyn Fn(&u64) -> bool, lack: &str, expected: &str| {
        let missing: BTreeSet<u64> = members(need).into_iter().filter(|step| !is(step)).collect();
        see(missing.is_empty(), format_args!("steps {}, {lack}", set(&missing)), expected)
    };
    let included = |step: &u64| m.included.contains(step);
    let done = |step: &u64| m.done.contains(step);
    missing(r.need_in, &included, "not included", "included, by NeedIn")?;
    missing(r.need_ex, &done, "not done", "done, by NeedEx")?;
    let out_or_done = |step: &u64| !included(step) || done(step);
    missing(r.need_out_or_ex, &out_or_done, "included and not done", "excluded or done, by NeedOutOrEx")
}
