//! A day of the sample job: 0 reboot, 1 order check, 2 publish. After a reboot nothing is published before the check,
//! also where the journal has been folded into a record and forgotten. Then the job is rewritten and cannot end any
//! more. A mast on which the order is checked at two places. And the cabinet's job for a mast with three arms.

use std::collections::BTreeSet;
use std::error::Error;
use ulzhartep::{cabinet, markings, steps, CanEnd, Entry, Graph, Marking, Refusal, Verdict};
use ulzhartep::{MARKING_BYTES, STORE_MOST};

const REBOOT: Entry = Entry {
    person: 0,
    step: 0,
    role: 0,
};
const PUBLISH: Entry = Entry {
    person: 1,
    step: 2,
    role: 1,
};

// The journals of the day.
const REBOOTED: [u8; 3] = [0, 0, 0];
const CHECKED: [u8; 3] = [0, 1, 0];
const PUBLISHED: [u8; 3] = [1, 2, 1];

fn shown(set: u64) -> BTreeSet<u64> {
    steps(set).collect()
}

fn print_marking(
    when: &str,
    Marking {
        done,
        due,
        included,
    }: Marking,
) {
    println!(
        "{when}: done {:?}, due {:?}, included {:?}",
        shown(done),
        shown(due),
        shown(included)
    );
}

/// Publish waits for the check, a reboot makes the check due and excludes publishing, and the check includes it again.
fn job() -> Graph {
    let mut g = Graph::bare(3, 2, 2);
    g.conditions[2] = 1 << 1;
    g.responses[0] = 1 << 1;
    g.includes[1] = 1 << 2;
    g.excludes[0] = 1 << 2;
    g.allows[..3].copy_from_slice(&[0b11, 0b01, 0b10]);
    g.holds[..2].copy_from_slice(&[0b01, 0b10]);
    g
}

/// With a store for so many markings.
fn print_end(when: &str, g: &Graph, marking: Marking, room: usize) -> Result<(), Refusal> {
    let mut store = vec![0; room * MARKING_BYTES];
    match g.can_end(marking, &mut store)? {
        CanEnd::Reachable { fewest, looked } => {
            println!("{when}, can end: yes, looked at {looked}");
            println!("fewest entries: {fewest}");
            if let Some(last) = markings(&store).nth(looked as usize - 1) {
                print_marking("ended", last);
            }
        }
        CanEnd::None { looked } => println!("{when}, can end: no, looked at {looked}"),
        CanEnd::Undecided { looked } => println!("{when}, can end: undecided, looked at {looked}"),
    }
    Ok(())
}

/// After a reboot the check ends the job. If the office rewrites it so that nobody may check, nothing does.
fn the_end(marking: Marking) -> Result<(), Refusal> {
    let mut g = job();
    print_end("rebooted", &g, marking, STORE_MOST)?;
    print_end("with a store for one marking", &g, marking, 1)?;
    g.allows[1] = 0;
    print_end(
        "rewritten so that nobody may check",
        &g,
        marking,
        STORE_MOST,
    )
}

/// Step 3 checks the order of the other half of the mast. It has the action of step 1, and so its roles, whatever they are.
fn double_mast() -> Graph {
    let mut g = job();
    g.steps = 4;
    g.labels[3] = g.labels[1];
    g.conditions[2] |= 1 << 3;
    g.responses[0] |= 1 << 3;
    g
}

fn two_checks() -> Result<(), Refusal> {
    let (mut g, start) = (double_mast(), Marking::new(0, 0, 0b1111));
    g.check()?;
    let allowed = shown(g.allowed_to(start, 1)?);
    println!("double mast, allowed to person 1: {allowed:?}");
    g.allows[g.labels[1] as usize] |= 1 << 1;
    let allowed = shown(g.allowed_to(start, 1)?);
    println!("the desk may check, allowed to person 1: {allowed:?}");
    Ok(())
}

/// The box writes the sheet. It is published once each arm has been checked, from the ground up.
fn three_arms() -> Result<(), Box<dyn Error>> {
    const HURRIED: [u8; 6] = [0, 0, 0, 1, 4, 1];
    const CLIMBED: [u8; 12] = [0, 1, 0, 0, 2, 0, 0, 3, 0, 1, 4, 1];
    let mut sheet = [0; 312];
    if let Err(refusal) = cabinet(17, &mut sheet) {
        let (number, text) = (refusal.number(), refusal.text());
        println!("cabinet with 17 arms: refused with {number}, {text}");
    }
    let length = cabinet(3, &mut sheet)?;
    println!("cabinet with 3 arms: {length} bytes");

    let (g, start) = Graph::read(&sheet[..length])?;
    print_marking("it begins with", start);
    if let Err(stopped) = g.run(start, &HURRIED) {
        let (number, text) = (stopped.refusal.number(), stopped.refusal.text());
        println!(
            "rebooted, publish: refused with {number} at entry {}, {text}",
            stopped.entries
        );
        let passed = g.run(stopped.marking, &CLIMBED)?;
        println!("three checks, publish: {} entries taken", passed.entries);
        print_marking("published", passed.marking);
    }
    Ok(())
}

fn main() -> Result<(), Box<dyn Error>> {
    let (g, start) = (job(), Marking::new(0, 0, 0b111));
    g.check()?;
    if let Err(refusal @ Refusal::Waits(waiting)) = g.ask(start, PUBLISH) {
        println!(
            "publish, asked: refused with {}, {}: {:?}",
            refusal.number(),
            refusal.text(),
            shown(waiting)
        );
    }

    let mut marking = start;
    g.keep(&mut marking, REBOOT)?;
    print_marking("rebooted", marking);
    if let Err(refusal) = g.keep(&mut marking, PUBLISH) {
        println!(
            "publish: refused with {}, {}",
            refusal.number(),
            refusal.text()
        );
    }
    for person in 0..g.people {
        let steps = g.allowed_to(marking, person)?;
        println!("allowed to person {person}: {:?}", shown(steps));
    }

    let record = g.fold(&REBOOTED)?;
    println!("folded: {} bytes of journal", REBOOTED.len());

    // From here on only the record knows of the reboot.
    if let Err(stopped) = g.restore(&record, &PUBLISHED, start) {
        let (number, text) = (stopped.refusal.number(), stopped.refusal.text());
        println!(
            "restored, publish: refused with {number} at entry {}, {text}",
            stopped.entries
        );
        print_marking("before that entry", stopped.marking);
    }
    let passed = g.restore(&record, &CHECKED, start)?;
    println!("restored, check: {} entry taken", passed.entries);
    print_marking("checked", passed.marking);

    g.ask(passed.marking, PUBLISH)?;
    println!("publish, asked: allowed");
    let published = g.take(passed.marking, PUBLISH)?;
    print_marking("published", published);
    println!(
        "finished: {}",
        if g.finished(published)? { "yes" } else { "no" }
    );

    if let Verdict::Starved(step) = g.lap(start, &CHECKED, &REBOOTED)? {
        println!("rebooting for ever: starves step {step}");
    }
    the_end(marking)?;
    two_checks()?;
    three_arms()
}
