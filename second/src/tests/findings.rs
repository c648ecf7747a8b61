//! What is said below a number: inputs made wrong by hand, each in one way.

use crate::cases::{sheets, Dice};
use crate::data::{Entry, Marking, Record};
use crate::model;
use crate::program::findings::{self, Finding};
use crate::sample::{self, PUBLISH, REBOOTED, START};

fn said(finding: Option<Finding>, found: &str, expected: &str) {
    assert_eq!(finding, Some(Finding { found: found.into(), expected: expected.into() }));
}

/// The sample job in six bodies: counts at 31, body 3 at 59, body 4 at 65, four arrows from 69 on, the actions at 81, 84 bytes.
fn job() -> Vec<u8> {
    sheets::written(&sample::graph(), START)
}

/// In five: counts at 26, body 3 at 53, body 4 at 59, four arrows from 63 on, 75 bytes.
fn job_in_five() -> Vec<u8> {
    sheets::written_in_five(&sample::graph(), START)
}

/// The sample job with these bytes changed is refused with the number, for this reason.
fn six(number: u64, changes: &[(usize, u8)], found: &str, expected: &str) {
    refused(&changed(job(), changes), number, found, expected);
}

fn five(number: u64, changes: &[(usize, u8)], found: &str, expected: &str) {
    refused(&changed(job_in_five(), changes), number, found, expected);
}

fn changed(mut bytes: Vec<u8>, changes: &[(usize, u8)]) -> Vec<u8> {
    changes.iter().for_each(|(at, byte)| bytes[*at] = *byte);
    bytes
}

fn refused(bytes: &[u8], number: u64, found: &str, expected: &str) {
    assert_eq!(model::sheet::read(bytes).err(), Some(number), "{found}");
    said(findings::sheet(bytes, number), found, expected);
}

const BODIES: &str = "6 or 5, the number of bodies";

#[test]
fn sheets_laid_out_wrongly() {
    let job = job();
    refused(&[], 1, "0 bytes", "64 to 37147");
    refused(&[6], 1, "1 bytes", "64 to 37147");
    refused(&job[..12], 1, "12 bytes", "64 to 37147");
    refused(&job[..34], 1, "34 bytes", "64 to 37147");
    refused(&vec![6; 37_148], 1, "37148 bytes", "64 to 37147");
    refused(&vec![6; 65_536], 1, "65536 bytes or more", "64 to 37147");
    refused(&vec![7; 65_536], 1, "byte 0 is 7", BODIES);
    refused(&[0], 1, "byte 0 is 0", BODIES);
    refused(&[&job[..], &[0]].concat(), 1, "body 6 ends at 84, the sheet at 85", "one end for both");
    refused(&job[..60], 1, "body 6 ends at 84, the sheet at 60", "one end for both");
    refused(&job[..35], 1, "body 6 ends at 84, the sheet at 35", "one end for both");
    six(1, &[(0, 7)], "byte 0 is 7", BODIES);
    six(1, &[(0, 4)], "byte 0 is 4", BODIES);
    six(1, &[(0, 5)], "body 1 begins at 31", "at 26");
    six(1, &[(11, 4)], "line 3 of the contents names body 4", "body 3");
    six(1, &[(26, 5)], "line 6 of the contents names body 5", "body 6");
    six(1, &[(2, 27)], "body 1 begins at 27", "at 31");
    six(1, &[(13, 1)], "body 3 begins at 315", "at 59");
    six(1, &[(15, 255)], "body 4 begins at 65", "at 65345");
    six(1, &[(27, 82)], "body 6 begins at 82", "at 81");
    six(1, &[(4, 3), (7, 34), (9, 25)], "body 1 has 3 bytes", "4");
    six(1, &[(9, 25), (12, 60), (14, 5)], "body 2 has 25 bytes", "24");
    six(1, &[(24, 11), (27, 80), (29, 4)], "body 5 has 11 bytes", "a multiple of 3");
}

#[test]
fn five_bodies_laid_out_wrongly() {
    let job = job_in_five();
    refused(&job[..12], 1, "12 bytes", "57 to 37077");
    refused(&job[..28], 1, "28 bytes", "57 to 37077");
    refused(&vec![5; 37_078], 1, "37078 bytes", "57 to 37077");
    refused(&vec![5; 65_536], 1, "65536 bytes or more", "57 to 37077");
    refused(&[&job[..], &[0]].concat(), 1, "body 5 ends at 75, the sheet at 76", "one end for both");
    refused(&job[..60], 1, "body 5 ends at 75, the sheet at 60", "one end for both");
    five(1, &[(0, 7)], "byte 0 is 7", BODIES);
    five(1, &[(0, 6)], "body 1 begins at 26", "at 31");
    five(1, &[(11, 4)], "line 3 of the contents names body 4", "body 3");
    five(1, &[(2, 27)], "body 1 begins at 27", "at 26");
    five(1, &[(13, 1)], "body 3 begins at 309", "at 53");
    five(1, &[(15, 255)], "body 4 begins at 59", "at 65339");
    five(1, &[(4, 4), (7, 30), (9, 23)], "body 1 has 4 bytes", "3");
    five(1, &[(9, 25), (12, 54), (14, 5)], "body 2 has 25 bytes", "24");
    five(1, &[(19, 5), (22, 64), (24, 11)], "body 5 has 11 bytes", "a multiple of 3");
}

#[test]
fn counts_and_sizes_of_sheets() {
    six(2, &[(31, 65), (32, 0)], "65 steps", "1 to 64");
    six(2, &[(32, 0), (33, 0)], "0 people", "1 to 16");
    six(2, &[(33, 17), (34, 0)], "17 roles", "1 to 16");
    six(2, &[(34, 0)], "0 actions", "1 to 64");
    six(2, &[(34, 65)], "65 actions", "1 to 64");
    five(2, &[(26, 65), (27, 0)], "65 steps", "1 to 64");
    five(2, &[(26, 0)], "0 steps", "1 to 64");
    five(2, &[(27, 0), (28, 0)], "0 people", "1 to 16");
    five(2, &[(28, 17)], "17 roles", "1 to 16");
    six(3, &[(34, 4), (31, 4)], "body 3 has 6 bytes", "8, two for each of the actions 0 to 3");
    six(3, &[(32, 1), (31, 4)], "body 4 has 4 bytes", "2, two for each of the people 0 to 0");
    six(3, &[(31, 4)], "body 6 has 3 bytes", "4, one for each of the steps 0 to 3");
    six(3, &[(31, 1)], "body 6 has 3 bytes", "1, one for each of the steps 0 to 0");
    five(3, &[(26, 4)], "body 3 has 6 bytes", "8, two for each of the steps 0 to 3");
    five(3, &[(27, 1)], "body 4 has 4 bytes", "2, two for each of the people 0 to 0");
}

#[test]
fn what_sheets_name_beyond_their_counts() {
    six(4, &[(35, 0b10_1001), (43, 8)], "steps 3 5 in done of the first marking", "steps 0 to 2");
    six(4, &[(50, 0x80), (63, 4)], "steps 63 in due of the first marking", "steps 0 to 2");
    six(4, &[(51, 0xff)], "steps 3 4 5 6 7 in included of the first marking", "steps 0 to 2");
    six(4, &[(63, 0b1111), (67, 4)], "roles 2 3 of action 2", "roles 0 to 1");
    six(4, &[(68, 0x80), (81, 3)], "roles 15 of person 1", "roles 0 to 1");
    six(4, &[(81, 3), (83, 9)], "action 3 of step 0", "actions 0 to 2");
    six(4, &[(83, 255)], "action 255 of step 2", "actions 0 to 2");
    five(4, &[(29, 0b10_1001), (37, 8)], "steps 3 5 in done of the first marking", "steps 0 to 2");
    five(4, &[(45, 0xff)], "steps 3 4 5 6 7 in included of the first marking", "steps 0 to 2");
    five(4, &[(57, 0b1111), (61, 4)], "roles 2 3 of step 2", "roles 0 to 1");
    five(4, &[(62, 0x80)], "roles 15 of person 1", "roles 0 to 1");
}

/// In six bodies the arrows begin 6 bytes later, and in everything else they are the same.
#[test]
fn arrows_of_sheets() {
    let either = |number: u64, changes: &[(usize, u8)], found: &str, expected: &str| {
        five(number, changes, found, expected);
        let later: Vec<_> = changes.iter().map(|(at, byte)| (at + 6, *byte)).collect();
        six(number, &later, found, expected);
    };
    either(5, &[(72, 4)], "arrow 3 is 4 0 2", "a kind from 0 to 3");
    either(5, &[(67, 9)], "arrow 1 is 1 9 1", "steps 0 to 2");
    either(5, &[(65, 3), (66, 9)], "arrow 0 is 0 1 3", "steps 0 to 2");
    let order = "arrows in ascending order, no arrow twice";
    either(5, &[(66, 0)], "arrow 1 is 0 0 1, after 0 1 2", order);
    either(5, &[(72, 2), (73, 1)], "arrow 3 is 2 1 2, after 2 1 2", order);
    either(6, &[(73, 1)], "step 1 includes and excludes step 2", "one of the two");
}

/// Every refused sheet has a reason, whatever is wrong with it.
#[test]
fn every_refused_sheet_has_a_reason() {
    for case in 0..3_000 {
        let sheet = sheets::make(&mut Dice::new(31, case)).sheet;
        if let Err(number) = model::sheet::read(&sheet) {
            assert!(findings::sheet(&sheet, number).is_some(), "case {case}, number {number}");
        }
    }
}

#[test]
fn journals_and_markings() {
    let wanted = "a multiple of 3, at most 65535";
    said(findings::journal(&[0; 10]), "10 bytes", wanted);
    said(findings::journal(&[0; 65_536]), "65536 bytes or more", wanted);
    assert_eq!(findings::journal(&[0; 65_535]), None);
    said(findings::lap(&[]), "the lap has 0 entries", "at least 1");
    said(findings::marking(Marking::new(0b1000, 0b1000, 7), 3), "steps 3 in done", "steps 0 to 2");
    said(findings::marking(Marking::new(0, 1 << 63 | 9, 8), 3), "steps 3 63 in due", "steps 0 to 2");
    said(findings::marking(Marking::new(1, 1, 2), 1), "steps 1 in included", "steps 0 to 0");
    assert_eq!(findings::marking(Marking::new(u64::MAX, 0, 0), 64), None);
    said(findings::store(0), "a store for 0 markings", "1 to 2048");
    said(findings::store(2_049), "a store for 2049 markings", "1 to 2048");
    assert_eq!([findings::store(1), findings::store(2_048)], [None, None]);
    said(findings::arms(1), "1 arms", "2 to 16");
    said(findings::arms(u64::MAX), "18446744073709551615 arms", "2 to 16");
    assert_eq!([findings::arms(2), findings::arms(16)], [None, None]);
}

#[test]
fn records_not_well_formed() {
    said(findings::stated(65), "N is 65", "1 to 64");
    said(findings::stated(u64::MAX), "N is 18446744073709551615 or more", "1 to 64");
    said(findings::record(3, &[0; 64]), "64 bytes", "65");
    let record = |changes: &[(usize, u8)], found: &str, expected: &str| {
        let mut bytes = [0; 65];
        for &(at, byte) in changes {
            bytes[at] = byte;
        }
        assert_eq!(model::record::read(3, &bytes).err(), Some(10), "{found}");
        said(findings::record(3, &bytes), found, expected);
    };
    record(&[(0, 2)], "byte 0 is 2", "1 for never, 0 otherwise");
    record(&[(0, 1), (9, 8)], "steps 3 in NeedEx of a record that is never", "every set empty");
    record(&[(1, 1), (17, 1), (64, 0x80)], "steps 63 in InClear", "steps 0 to 2");
    let pairs = [
        (1, 17, "NeedIn", "NeedOutOrEx"),
        (9, 17, "NeedEx", "NeedOutOrEx"),
        (25, 9, "Done", "NeedEx"),
        (49, 1, "InSet", "NeedIn"),
        (49, 57, "InSet", "InClear"),
        (33, 41, "DueSet", "DueClear"),
    ];
    for (one, other, name, its) in pairs {
        record(&[(one, 0b111), (other, 0b101)], &format!("steps 0 2 in {name} and in {its}"), "no step in both");
    }
    assert_eq!(findings::record(3, &[0; 65]), None);
}

#[test]
fn records_that_do_not_apply() {
    let at = Marking::new(0b0010, 0, 0b0111);
    let needs = |words: [u64; 3]| Record::new([0, words[0], words[1], words[2], 0, 0, 0, 0, 0]);
    let never = Record::new([1, 0, 0, 0, 0, 0, 0, 0, 0]);
    said(findings::unapplied(&never, at), "a record that is never", "one that some marking suits");
    said(findings::unapplied(&needs([0b1001, 1, 4]), at), "steps 3, not included", "included, by NeedIn");
    said(findings::unapplied(&needs([1, 0b1001, 4]), at), "steps 0 3, not done", "done, by NeedEx");
    let open = "steps 0 2, included and not done";
    said(findings::unapplied(&needs([1, 2, 0b1101]), at), open, "excluded or done, by NeedOutOrEx");
    assert_eq!(findings::unapplied(&needs([7, 2, 0b1000]), at), None);
}

#[test]
fn entries_not_allowed() {
    let g = model::Graph::read(&sample::graph());
    let entry = |m: Marking, [person, step, role]: [u8; 3], found: &str, expected: &str| {
        let finding = findings::entry(&g, &model::Marking::read(m), Entry { person, step, role });
        said(finding, found, expected);
    };
    entry(START, [2, 9, 9], "person 2", "people 0 to 1");
    entry(START, [1, 3, 9], "step 3", "steps 0 to 2");
    entry(START, [1, 2, 2], "role 2", "roles 0 to 1");
    entry(START, [1, 1, 0], "person 1, roles 1", "role 0 among them");
    entry(START, [1, 1, 1], "step 1, action 1, roles 0", "role 1 among them");
    entry(REBOOTED, [1, 2, 1], "step 2, excluded", "included");
    entry(START, [1, 2, 1], "steps 1, included and not done", "done before step 2");
    assert_eq!(findings::entry(&g, &model::Marking::read(Marking::new(3, 0, 7)), PUBLISH), None);
}
