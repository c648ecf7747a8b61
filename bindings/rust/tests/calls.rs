//! Every call once or twice, against what the rules say of the sample job: 0 reboot, 1 order check, 2 publish.

use ulzhartep::{apply, cabinet, join, markings, steps, walk};
use ulzhartep::{CanEnd, Entry, Graph, Marking, Passed, Record, Refusal, Verdict};
use ulzhartep::{MARKING_BYTES, SHEET_BYTES, SHEET_LEAST, SHEET_WRITTEN_LEAST, STORE_MOST};

const START: Marking = Marking::new(0, 0, 0b111);
const REBOOTED: Marking = Marking::new(0b001, 0b010, 0b011);
const REBOOT: Entry = Entry { person: 0, step: 0, role: 0 };
const CHECK: Entry = Entry { person: 0, step: 1, role: 0 };
const PUBLISH: Entry = Entry { person: 1, step: 2, role: 1 };

fn job() -> Graph {
    let mut g = Graph::bare(3, 2, 2);
    g.conditions[2] = 1 << 1;
    g.responses[0] = 1 << 1;
    g.includes[1] = 1 << 2;
    g.excludes[0] = 1 << 2;
    g.allows[..3].copy_from_slice(&[0b11, 0b01, 0b10]);
    g.holds[..2].copy_from_slice(&[0b01, 0b10]);
    g
}

fn journal(entries: &[Entry]) -> Vec<u8> {
    entries.iter().flat_map(|e| [e.person, e.step, e.role]).collect()
}

#[test]
fn rules() {
    let g = job();
    assert_eq!(g.check(), Ok(()));
    assert_eq!(Graph::bare(65, 1, 1).check(), Err(Refusal::Counts));
    assert_eq!((g.ask(START, REBOOT), g.take(START, REBOOT)), (Ok(()), Ok(REBOOTED)));
    let waits = Refusal::Waits(0b010);
    assert_eq!((g.ask(START, PUBLISH), g.take(START, PUBLISH)), (Err(waits), Err(waits)));
    let mut kept = START;
    assert_eq!(g.keep(&mut kept, PUBLISH), Err(waits));
    assert_eq!((g.keep(&mut kept, REBOOT), kept), (Ok(()), REBOOTED));
    assert_eq!((g.finished(START), g.finished(REBOOTED)), (Ok(true), Ok(false)));
}

/// The question gives what the move is refused with, and a marking with a step beyond comes before any entry.
#[test]
fn asked_and_refused() {
    let g = job();
    let refused = |marking, person, step, role| {
        let entry = Entry { person, step, role };
        let refusal = g.ask(marking, entry).expect_err("not allowed");
        assert_eq!(g.take(marking, entry), Err(refusal));
        refusal
    };
    assert_eq!(refused(START, 2, 0, 0), Refusal::Unknown);
    assert_eq!(refused(START, 1, 1, 0), Refusal::NotHeld);
    assert_eq!(refused(START, 1, 1, 1), Refusal::NotOnStep);
    assert_eq!(refused(REBOOTED, 1, 2, 1), Refusal::Excluded);
    assert_eq!(refused(Marking::new(8, 0, 0), 2, 0, 0), Refusal::Outside);
    assert_eq!(Graph::bare(0, 1, 1).ask(START, REBOOT), Err(Refusal::Counts));
}

/// Step 3 is a second order check, by its label: what role set the action has, both steps have.
#[test]
fn one_action() {
    let mut g = job();
    (g.steps, g.labels[3]) = (4, 1);
    let all = Marking::new(0, 0, 0b1111);
    let checks = |g: &Graph, role| [1, 3].map(|step| g.ask(all, Entry { person: role, step, role }));
    assert_eq!([checks(&g, 0), checks(&g, 1)], [[Ok(()); 2], [Err(Refusal::NotOnStep); 2]]);
    g.allows[1] = 0b10;
    assert_eq!([checks(&g, 0), checks(&g, 1)], [[Err(Refusal::NotOnStep); 2], [Ok(()); 2]]);
    assert_eq!([0, 1].map(|person| g.allowed_to(all, person)), [Ok(0b0001), Ok(0b1011)]);
}

/// 2 and 4 as far as they are of actions; one that no step has is lawful.
#[test]
fn actions() {
    let changed = |change: fn(&mut Graph)| {
        let mut g = job();
        change(&mut g);
        g.check()
    };
    assert_eq!([changed(|g| g.actions = 0), changed(|g| g.actions = 65)], [Err(Refusal::Counts); 2]);
    assert_eq!([changed(|g| g.actions = 64), changed(|g| (g.actions, g.allows[3]) = (4, 0b11))], [Ok(()); 2]);
    assert_eq!([changed(|g| g.labels[2] = 3), changed(|g| g.labels[2] = u64::MAX)], [Err(Refusal::Beyond); 2]);
    assert_eq!([changed(|g| g.labels[3] = 1), changed(|g| g.allows[3] = 1)], [Err(Refusal::Beyond); 2]);
    assert_eq!(changed(|g| g.allows[0] = 0b100), Err(Refusal::Beyond));
}

/// All steps at once, each allowed in some role; and a person is a whole word.
#[test]
fn allowed() {
    let (g, checked) = (job(), Marking::new(0b011, 0, 0b111));
    assert_eq!([0, 1].map(|person| g.allowed_to(START, person)), [Ok(0b011), Ok(0b001)]);
    assert_eq!([0, 1].map(|person| g.allowed_to(checked, person)), [Ok(0b011), Ok(0b101)]);
    assert_eq!([START, REBOOTED, checked].map(|m| g.allowed_to_someone(m)), [Ok(0b011), Ok(0b011), Ok(0b111)]);
    let nothing = Marking::default();
    assert_eq!([g.allowed_to(nothing, 1), g.allowed_to_someone(nothing)], [Ok(0); 2]);
    for person in [2, 16, 255, 256, 257, 1 << 32, u64::MAX] {
        assert_eq!(g.allowed_to(checked, person), Err(Refusal::Unknown), "{person}");
    }
    let outside = Marking::new(8, 0, 0);
    assert_eq!([g.allowed_to(outside, 2), g.allowed_to_someone(outside)], [Err(Refusal::Outside); 2]);
    let none = Graph::bare(0, 1, 1);
    assert_eq!([none.allowed_to(START, 1), none.allowed_to_someone(START)], [Err(Refusal::Counts); 2]);
}

/// Every call that can wait, where publishing waits for all three steps and then for all but the check.
#[test]
fn waiting() {
    let mut g = job();
    g.conditions[2] = 0b111;
    let (all, two) = (Refusal::Waits(0b111), Refusal::Waits(0b101));
    assert_eq!(g.ask(START, PUBLISH), Err(all));
    assert_eq!((g.take(START, PUBLISH), g.keep(&mut { START }, PUBLISH)), (Err(all), Err(all)));
    let late = journal(&[CHECK, PUBLISH]);
    let stopped = g.run(START, &late).expect_err("publish waits");
    assert_eq!((stopped.refusal, stopped.entries), (two, 1));
    let checked = g.fold(&late[..3]).expect("a journal");
    assert_eq!(g.restore(&checked, &late[3..], START).map_err(|stopped| stopped.refusal), Err(two));
    let lapped = |stem, lap| g.lap(START, stem, lap).map_err(|refused| (refused.refusal, refused.pass));
    assert_eq!((lapped(&late, &late), lapped(&[], &late[3..])), (Err((two, 0)), Err((all, 1))));
    let track = g.track_start(START).expect("a marking");
    assert_eq!(g.track_step(track, PUBLISH), Err(all));
    assert_eq!(steps(0b101).collect::<Vec<_>>(), [0, 2]);
    assert_eq!((steps(0).count(), steps(u64::MAX).count()), (0, 64));
}

#[test]
fn sheets() {
    let (g, mut room) = (job(), [0; SHEET_BYTES]);
    let length = g.write(START, &mut room).expect("there is room");
    assert_eq!((length, Graph::read(&room[..length])), (84, Ok((g.clone(), START))));
    assert_eq!(Graph::read(&room[..83]), Err(Refusal::Layout));
    assert_eq!(g.write(START, &mut room[..83]), Err(Refusal::Room));
    room[82] = 3;
    assert_eq!(Graph::read(&room[..84]), Err(Refusal::Beyond));
    room[34] = 65;
    assert_eq!(Graph::read(&room[..84]), Err(Refusal::Counts));
}

/// The sample job in both forms, which have bodies 2 to 5 in common, since every step is its own action.
#[test]
fn five_bodies() {
    let (g, mut six) = (job(), [0; 84]);
    assert_eq!(g.write(START, &mut six), Ok(84));
    let contents = [5, 1, 26, 0, 3, 0, 2, 29, 0, 24, 0, 3, 53, 0, 6, 0, 4, 59, 0, 4, 0, 5, 63, 0, 12, 0];
    let five = [&contents[..], &six[31..34], &six[35..81]].concat();
    assert_eq!((five.len(), Graph::read(&five)), (75, Ok((g, START))));
}

#[test]
fn shortest_sheets() {
    let (mut g, start, mut six) = (Graph::bare(1, 1, 1), Marking::new(0, 0, 1), [0; SHEET_WRITTEN_LEAST]);
    (g.allows[0], g.holds[0]) = (1, 1);
    assert_eq!((g.write(start, &mut six), Graph::read(&six)), (Ok(SHEET_WRITTEN_LEAST), Ok((g.clone(), start))));
    let contents = [5, 1, 26, 0, 3, 0, 2, 29, 0, 24, 0, 3, 53, 0, 2, 0, 4, 55, 0, 2, 0, 5, 57, 0, 0, 0];
    let five = [&contents[..], &six[31..34], &six[35..63]].concat();
    assert_eq!((five.len(), Graph::read(&five)), (SHEET_LEAST, Ok((g, start))));
}

/// The cabinet's job, made by hand.
fn mast(arms: usize) -> (Graph, Marking) {
    let (mut g, publish) = (Graph::bare(arms as u64 + 2, 2, 2), arms + 1);
    let checks = (1 << publish) - 2;
    (g.responses[0], g.includes[0], g.excludes[0]) = (checks, 0b10, checks ^ 0b10 | 1 << publish);
    for k in 1..=arms {
        (g.includes[k], g.excludes[k], g.allows[k]) = (1 << (k + 1), 1 << k, 0b01);
    }
    (g.allows[0], g.allows[publish], g.holds[0], g.holds[1]) = (0b11, 0b10, 0b01, 0b10);
    (g, Marking::new(0, checks, 0b11))
}

/// Every mast, in a room that is longer, as long, and a byte too short.
#[test]
fn cabinets() {
    for arms in 2..=16 {
        let (length, mut room) = (72 + 15 * arms, [0xa5; 320]);
        assert_eq!(cabinet(arms as u64, &mut room[..length - 1]), Err(Refusal::Room));
        assert_eq!(room, [0xa5; 320]);
        assert_eq!(cabinet(arms as u64, &mut room), Ok(length));
        assert_eq!((Graph::read(&room[..length]), &room[length..]), (Ok(mast(arms)), &[0xa5; 320][length..]));
        assert_eq!(cabinet(arms as u64, &mut room[..length]), Ok(length));
    }
}

/// 30 comes before 18, and arms are a whole word.
#[test]
fn no_such_masts() {
    for arms in [0, 1, 17, 18, 64, 256 + 2, (1 << 32) + 2, u64::MAX] {
        let mut room = [0xa5; 320];
        assert_eq!([cabinet(arms, &mut room), cabinet(arms, &mut [])], [Err(Refusal::Arms); 2], "{arms}");
        assert_eq!(room, [0xa5; 320]);
    }
}

/// On three arms: publishing comes after all checks, in their order, and is lost with a reboot.
#[test]
fn from_the_ground_up() {
    let mut room = [0; 117];
    assert_eq!(cabinet(3, &mut room), Ok(117));
    let (g, start) = Graph::read(&room).expect("a sheet");
    let takes = |step| match step {
        4 => [1, 4, 1],
        _ => [0, step, 0],
    };
    let run = |steps: &[u8]| {
        let ran = g.run(start, &steps.iter().flat_map(|&step| takes(step)).collect::<Vec<_>>());
        ran.map(|passed| g.finished(passed.marking)).map_err(|stopped| (stopped.refusal, stopped.entries))
    };
    let excluded = |at| Err((Refusal::Excluded, at));
    assert_eq!([run(&[]), run(&[0, 1, 2]), run(&[1, 2, 3, 0])], [Ok(Ok(false)); 3]);
    assert_eq!([run(&[1, 2, 3]), run(&[0, 1, 2, 3, 4, 4]), run(&[1, 2, 0, 1, 2, 3])], [Ok(Ok(true)); 3]);
    assert_eq!([run(&[4]), run(&[2]), run(&[0, 4])], [excluded(0), excluded(0), excluded(1)]);
    assert_eq!([run(&[1, 1]), run(&[1, 3]), run(&[1, 2, 3, 0, 4])], [excluded(1), excluded(1), excluded(4)]);
    assert_eq!(g.run(start, &[1, 1, 1]).map_err(|stopped| stopped.refusal), Err(Refusal::NotOnStep));
    assert_eq!(g.run(start, &[0, 4, 1]).map_err(|stopped| stopped.refusal), Err(Refusal::NotHeld));
}

#[test]
fn journals() {
    let (g, day) = (job(), journal(&[REBOOT, CHECK]));
    assert_eq!(g.run(START, &day), Ok(Passed { entries: 2, marking: Marking::new(0b011, 0, 0b111) }));
    assert_eq!(g.run(START, &day[..4]).map_err(|stopped| stopped.refusal), Err(Refusal::Length));
    let stopped = g.run(START, &journal(&[REBOOT, PUBLISH])).expect_err("publish waits");
    assert_eq!((stopped.refusal, stopped.entries, stopped.marking), (Refusal::Excluded, 1, REBOOTED));
    assert_eq!([0, 1, 2].map(|place| walk(&day, place)), [Ok(Some(REBOOT)), Ok(Some(CHECK)), Ok(None)]);
    assert_eq!(g.lap(START, &[], &day), Ok(Verdict::Accepted));
    assert_eq!(g.lap(START, &[], &day[..3]), Ok(Verdict::Starved(1)));
    assert_eq!(g.lap(START, &day, &[]).map_err(|refused| refused.refusal), Err(Refusal::EmptyLap));
    let refused = g.lap(START, &[], &journal(&[REBOOT, PUBLISH])).expect_err("publish waits");
    assert_eq!((refused.refusal, refused.index, refused.pass), (Refusal::Excluded, 1, 1));
}

/// What a search answers from the marking on, in a store for so many markings, and what it leaves there.
fn ends(g: &Graph, marking: Marking, room: usize) -> (CanEnd, Vec<Marking>) {
    let mut store = vec![0xa5; room * MARKING_BYTES];
    let answer = g.can_end(marking, &mut store).expect("a store");
    (answer, markings(&store).collect())
}

#[test]
fn the_three_verdicts() {
    let (mut g, rest) = (job(), Marking::new(0xa5a5_a5a5_a5a5_a5a5, 0xa5a5_a5a5_a5a5_a5a5, 0xa5a5_a5a5_a5a5_a5a5));
    let checked = Marking::new(0b011, 0, 0b111);
    assert_eq!(ends(&g, START, 1), (CanEnd::Reachable { fewest: 0, looked: 1 }, vec![START]));
    let one_entry = CanEnd::Reachable { fewest: 1, looked: 2 };
    assert_eq!(ends(&g, REBOOTED, 3), (one_entry, vec![REBOOTED, checked, rest]));
    assert_eq!(ends(&g, REBOOTED, 1), (CanEnd::Undecided { looked: 1 }, vec![REBOOTED]));
    g.allows[1] = 0;
    assert_eq!(ends(&g, REBOOTED, 2), (CanEnd::None { looked: 1 }, vec![REBOOTED, rest]));
}

/// Two checks, and both are due: a store for 5 ends with a finished marking, whose turn does not come, since a sixth is
/// found before.
#[test]
fn finished_at_its_turn() {
    let mut g = job();
    (g.steps, g.labels[3]) = (4, 1);
    (g.conditions[2], g.responses[0]) = (0b1010, 0b1010);
    let rebooted = Marking::new(0b0001, 0b1010, 0b1011);
    let (answer, found) = ends(&g, rebooted, 5);
    assert_eq!(answer, CanEnd::Undecided { looked: 3 });
    let finished = found.into_iter().map(|marking| g.finished(marking));
    assert_eq!(finished.collect::<Vec<_>>(), [Ok(false), Ok(false), Ok(false), Ok(false), Ok(true)]);
    assert_eq!(ends(&g, rebooted, STORE_MOST).0, CanEnd::Reachable { fewest: 2, looked: 5 });
}

/// 22, after 8, leaves the store alone.
#[test]
fn stores() {
    let (g, most) = (job(), STORE_MOST * MARKING_BYTES);
    for length in [0, 1, MARKING_BYTES - 1, MARKING_BYTES + 1, most - 1, most + 1, most + MARKING_BYTES] {
        let mut store = vec![0xa5; length];
        assert_eq!(g.can_end(START, &mut store), Err(Refusal::Store), "{length}");
        assert_eq!(store, vec![0xa5; length]);
    }
    assert_eq!(g.can_end(Marking::new(8, 0, 0), &mut []), Err(Refusal::Outside));
    assert_eq!(Graph::bare(0, 1, 1).can_end(START, &mut []), Err(Refusal::Counts));
    assert_eq!(markings(&[0; 47]).count(), 1);
}

#[test]
fn records() {
    let (g, day) = (job(), journal(&[REBOOT, CHECK]));
    let [first, second] = [&day[..3], &day[3..]].map(|part| g.fold(part).expect("a journal"));
    assert_eq!(join(3, &first, &second), g.fold(&day));
    assert_eq!(apply(3, &first, START), Ok(REBOOTED));
    assert_eq!(apply(3, &first, Marking::default()), Err(Refusal::NotApplied));
    let record = Record::read(3, &first).expect("a record");
    assert_eq!((record.done, record.due_set, record.in_clear, record.write(3)), (0b001, 0b010, 0b100, Ok(first)));
    assert_eq!(Record::read(3, &first[..64]), Err(Refusal::IllFormed));
    assert_eq!(g.restore(&first, &day[3..], START).map(|passed| passed.marking), Ok(Marking::new(0b011, 0, 0b111)));
}

#[test]
fn tracker() {
    let g = job();
    let track = g.track_start(START).expect("a marking");
    assert_eq!((track.rank, track.flag, g.track_idle(track)), (1, 1, Ok(track)));
    let track = g.track_step(track, REBOOT).expect("it is allowed");
    assert_eq!((track.rank, track.flag, track.marking), (1, 0, REBOOTED));
    assert_eq!(g.track_step(track, PUBLISH), Err(Refusal::Excluded));
}

#[test]
fn numbers() {
    for number in 1..=31 {
        assert_eq!(Refusal::new(number, 3).number(), number);
    }
    let text = "refused: 15 the step waits for steps that are not done, steps 1 3 7";
    assert_eq!(Refusal::Waits(0b1000_1010).to_string(), text);
    assert_eq!(
        [Refusal::Layout, Refusal::NotOnStep, Refusal::Room, Refusal::Store, Refusal::Arms].map(Refusal::text),
        [
            "not laid out as a sheet",
            "the step's action does not have this role",
            "there is too little room",
            "the store is no whole number of markings from 1 to 2,048",
            "the number of arms is not from 2 to 16"
        ]
    );
    for number in [0, 19, 20, 21, 23, 24, 28, 29, 31, u64::MAX] {
        assert_eq!(Refusal::Other(number).text(), "no number of this library");
    }
}
