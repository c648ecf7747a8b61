use super::answers;
use crate::cases::{self, sheets, Density, Dice};
use crate::data::{Graph, Marking, Written};
use crate::{model, peer, sample};
use std::collections::BTreeSet;

/// docs/FORMATS.md has both in hex: the smallest in six bodies, and in five.
const SMALLEST: [u8; 64] = [
    0x06, 0x01, 0x1F, 0x00, 0x04, 0x00, 0x02, 0x23, 0x00, 0x18, 0x00, 0x03, 0x3B, 0x00, 0x02, 0x00, 0x04, 0x3D, 0x00,
    0x02, 0x00, 0x05, 0x3F, 0x00, 0x00, 0x00, 0x06, 0x3F, 0x00, 0x01, 0x00, 0x01, 0x01, 0x01, 0x01, 0, 0, 0, 0, 0, 0,
    0, 0, 0, 0, 0, 0, 0, 0, 0, 0, 0x01, 0, 0, 0, 0, 0, 0, 0, 0x01, 0x00, 0x01, 0x00, 0x00,
];
const SMALLEST_IN_FIVE: [u8; 57] = [
    0x05, 0x01, 0x1A, 0x00, 0x03, 0x00, 0x02, 0x1D, 0x00, 0x18, 0x00, 0x03, 0x35, 0x00, 0x02, 0x00, 0x04, 0x37, 0x00,
    0x02, 0x00, 0x05, 0x39, 0x00, 0x00, 0x00, 0x01, 0x01, 0x01, 0, 0, 0, 0, 0, 0, 0, 0, 0, 0, 0, 0, 0, 0, 0, 0, 0x01,
    0, 0, 0, 0, 0, 0, 0, 0x01, 0x00, 0x01, 0x00,
];

/// Steps 0 and 2 share action 1, step 1 has action 0, and no step has action 2.
const SHARED: [u8; 75] = [
    6, // bodies
    1, 31, 0, 4, 0, // counts
    2, 35, 0, 24, 0, // first marking
    3, 59, 0, 6, 0, // role sets of actions
    4, 65, 0, 4, 0, // role sets of people
    5, 69, 0, 3, 0, // arrows
    6, 72, 0, 3, 0, // actions of steps
    3, 2, 2, 3, // steps, people, roles, actions
    0, 0, 0, 0, 0, 0, 0, 0, // Ex
    4, 0, 0, 0, 0, 0, 0, 0, // Re {2}
    7, 0, 0, 0, 0, 0, 0, 0, // In {0, 1, 2}
    1, 0, 2, 0, 3, 0, // {0}, {1}, {0, 1}
    2, 0, 1, 0, // {1}, {0}
    1, 0, 2, // a response
    1, 0, 1,
];

fn shared() -> (Graph, Marking) {
    let mut g = Graph::bare(3, 2, 2);
    g.allows[..3].copy_from_slice(&[0b01, 0b10, 0b11]);
    g.holds[..2].copy_from_slice(&[0b10, 0b01]);
    g.labels[..3].copy_from_slice(&[1, 0, 1]);
    g.responses[0] = 0b100;
    (g, Marking::new(0, 0b100, 0b111))
}

fn both_read(sheet: &[u8]) -> Result<(Graph, Marking), u64> {
    let right = model::sheet::read(sheet).map(|(graph, marking)| (graph.write(), marking.write()));
    let before = || (Graph::bare(9, 9, 9), Marking::new(9, 9, 9));
    let (mut graph, mut marking) = before();
    let number = peer::sheet::read(sheet, &mut graph, &mut marking);
    let after = right.clone().unwrap_or(before());
    assert_eq!((number, (graph, marking)), (right.as_ref().err().copied().unwrap_or(0), after));
    right
}

fn both_write(graph: &Graph, marking: Marking, room: usize) -> Result<Vec<u8>, u64> {
    let right = model::sheet::write(&model::Graph::read(graph), marking, room);
    let mut sheet = vec![0; room];
    let Written { number, length } = peer::sheet::write(graph, marking, &mut sheet);
    sheet.truncate(length as usize);
    assert_eq!(if number == 0 { Ok(sheet) } else { Err(number) }, right);
    right
}

/// The number of a sheet with these bytes changed.
fn with(sheet: &[u8], changes: &[(usize, u8)]) -> u64 {
    let mut sheet = sheet.to_vec();
    changes.iter().for_each(|(place, byte)| sheet[*place] = *byte);
    both_read(&sheet).err().unwrap_or(0)
}

#[test]
fn the_smallest_sheets() {
    let mut lone = Graph::bare(1, 1, 1);
    (lone.allows[0], lone.holds[0]) = (1, 1);
    let first = Marking::new(0, 0, 1);
    assert_eq!(both_read(&SMALLEST), Ok((lone.clone(), first)));
    assert_eq!(both_read(&SMALLEST_IN_FIVE), Ok((lone.clone(), first)));
    assert_eq!((lone.actions, lone.labels), (1, [0; 64]));
    assert_eq!(both_write(&lone, first, 64), Ok(SMALLEST.to_vec()));
    assert_eq!(both_write(&lone, first, 63), Err(18));
}

#[test]
fn steps_that_share_an_action() {
    let (graph, marking) = shared();
    assert_eq!(both_read(&SHARED), Ok((graph.clone(), marking)));
    assert_eq!(both_write(&graph, marking, 75), Ok(SHARED.to_vec()));
    // In five bodies each of the two steps has the roles for itself.
    let mut apart = Graph { labels: Graph::bare(3, 2, 2).labels, ..graph.clone() };
    apart.allows[..3].copy_from_slice(&[0b10, 0b01, 0b10]);
    assert_eq!(both_read(&sheets::written_in_five(&graph, marking)), Ok((apart.clone(), marking)));
    let sheet = both_write(&apart, marking, 75).expect("well-formed");
    assert_eq!((&sheet[59..65], &sheet[72..]), (&[2, 0, 1, 0, 2, 0][..], &[0, 1, 2][..]));
}

/// As many actions as there can be, for one step, and one action for as many steps.
#[test]
fn more_actions_than_steps_and_fewer() {
    let many = Graph { actions: 64, ..Graph::bare(1, 1, 1) };
    let sheet = both_write(&many, Marking::default(), 190).expect("well-formed");
    assert_eq!((sheet.len(), sheet[34], sheet[189]), (31 + 4 + 24 + 128 + 2 + 1, 64, 0));
    assert_eq!(both_read(&sheet), Ok((many, Marking::default())));
    let one = Graph { actions: 1, labels: [0; 64], ..Graph::bare(64, 1, 1) };
    let sheet = both_write(&one, Marking::default(), 127).expect("well-formed");
    assert_eq!((sheet.len(), sheet[34], &sheet[63..]), (31 + 4 + 24 + 2 + 2 + 64, 1, &[0; 64][..]));
    assert_eq!(both_read(&sheet), Ok((one, Marking::default())));
}

#[test]
fn the_longest_sheets() {
    let dice = &mut Dice::new(1, 1);
    let full = cases::sized(dice, [64, 16, 16, 64], [Density::Full; 6]);
    let sheet = both_write(&full, Marking::default(), 40_000).expect("well-formed");
    assert_eq!(sheet.len(), 37_147);
    let own = Graph { labels: Graph::bare(64, 16, 16).labels, ..full.clone() };
    assert_eq!(both_read(&sheet), Ok((full.clone(), Marking::default())));
    let five = sheets::written_in_five(&full, Marking::default());
    assert_eq!(five.len(), 37_077);
    assert_eq!(both_read(&five), Ok((own, Marking::default())));
    for (sheet, arrows) in [(sheet, 219), (five, 213)] {
        let six = sheet[0] == 6;
        let mut longer = sheet;
        longer.insert(arrows, 0);
        (longer[19], longer[22], longer[27]) = (33, longer[22] + 1, longer[27] + u8::from(six));
        assert_eq!(both_read(&longer), Err(1), "a byte more than there can be, in body 4");
        longer.drain(arrows + 1..arrows + 4);
        longer[24..26].copy_from_slice(&36_861u16.to_le_bytes());
        longer[27] -= 3 * u8::from(six);
        assert_eq!(both_read(&longer), Err(3), "an arrow less");
    }
}

#[test]
fn the_sample_job_in_six_bodies() {
    let sheet = both_write(&sample::graph(), sample::START, 100).expect("well-formed");
    assert_eq!(sheet[69..], [0, 1, 2, 1, 0, 1, 2, 1, 2, 3, 0, 2, 0, 1, 2]);
    assert_eq!(both_read(&sheet), Ok((sample::graph(), sample::START)));
    for first in [0, 1, 4, 5, 7, 255] {
        assert_eq!(with(&sheet, &[(0, first)]), 1, "byte 0");
    }
    assert_eq!(with(&sheet, &[(26, 7)]), 1, "a kind");
    assert_eq!(with(&sheet, &[(27, 80)]), 1, "an offset");
    assert_eq!(with(&sheet, &[(4, 3), (7, 34), (9, 25)]), 1, "three counts");
    assert_eq!(with(&sheet, &[(34, 0)]), 2, "no action");
    assert_eq!(with(&sheet, &[(34, 65)]), 2, "65 actions");
    assert_eq!(with(&sheet, &[(33, 17)]), 2, "roles");
    assert_eq!(with(&sheet, &[(34, 2)]), 3, "an action less than role sets");
    assert_eq!(with(&sheet, &[(31, 2)]), 3, "a step less than have actions");
    assert_eq!(with(&sheet, &[(31, 4)]), 3, "a step more than have actions");
    assert_eq!(with(&sheet, &[(32, 1)]), 3, "people");
    assert_eq!(with(&sheet, &[(59, 4)]), 4, "a role beyond");
    assert_eq!(with(&sheet, &[(35, 8)]), 4, "a step beyond, in the marking");
    for action in [3, 63, 64, 255] {
        assert_eq!([81, 82, 83].map(|place| with(&sheet, &[(place, action)])), [4; 3], "an action beyond");
    }
    assert_eq!([0, 1, 2].map(|action| with(&sheet, &[(81, action), (83, action)])), [0; 3]);
    assert_eq!(with(&sheet, &[(70, 3)]), 5, "an arrow from an unknown step");
    assert_eq!(with(&sheet, &[(78, 4)]), 5, "an arrow of kind 4");
    assert_eq!(with(&sheet, &[(79, 1)]), 6, "a pair both included and excluded");
    assert_eq!(both_read(&sheet[..83]), Err(1), "one byte cut");
    assert_eq!(both_read(&[&sheet[..], &[0]].concat()), Err(1), "one byte added");
}

/// Where body 6 alone is a byte too short or too long, and the contents say so.
#[test]
fn one_byte_for_each_step() {
    let sheet = both_write(&sample::graph(), sample::START, 84).expect("well-formed");
    let sized = |bytes: u8| {
        let mut sheet = sheet.clone();
        sheet[29] = bytes;
        sheet.resize(81 + usize::from(bytes), 0);
        both_read(&sheet).err()
    };
    assert_eq!([0, 1, 2, 3, 4, 6, 64, 65, 255].map(sized), [3, 3, 3, 0, 3, 3, 3, 3, 3].map(|n| (n != 0).then_some(n)));
    // The arrows' last one taken for the actions: each is a multiple of 3.
    assert_eq!(with(&sheet, &[(24, 9), (27, 78), (29, 6)]), 3);
    assert_eq!(with(&sheet, &[(24, 15), (27, 84), (29, 0)]), 3);
}

/// The lowest number that holds.
#[test]
fn the_order_of_the_numbers() {
    let sheet = both_write(&sample::graph(), sample::START, 84).expect("well-formed");
    let all = [(0, 5), (34, 65), (32, 1), (83, 3), (78, 4), (79, 1)];
    assert_eq!([0, 1, 2, 3, 4].map(|from| with(&sheet, &all[from..])), [1, 2, 3, 4, 5]);
    assert_eq!(with(&sheet, &all[5..]), 6);
}

#[test]
fn the_sample_job_in_five_bodies() {
    let sheet = sheets::written_in_five(&sample::graph(), sample::START);
    assert_eq!((sheet.len(), &sheet[63..]), (75, &[0, 1, 2, 1, 0, 1, 2, 1, 2, 3, 0, 2][..]));
    assert_eq!(both_read(&sheet), Ok((sample::graph(), sample::START)));
    for first in [0, 4, 6, 7, 255] {
        assert_eq!(with(&sheet, &[(0, first)]), 1, "byte 0");
    }
    assert_eq!(with(&sheet, &[(11, 4)]), 1, "a kind");
    assert_eq!(with(&sheet, &[(4, 4), (7, 30), (9, 23)]), 1, "four counts");
    assert_eq!(with(&sheet, &[(28, 17)]), 2, "roles");
    assert_eq!(with(&sheet, &[(26, 2)]), 3, "steps");
    assert_eq!(with(&sheet, &[(53, 4)]), 4, "a role beyond");
    assert_eq!(with(&sheet, &[(29, 8)]), 4, "a step beyond, in the marking");
    assert_eq!(with(&sheet, &[(64, 3)]), 5, "an arrow from an unknown step");
    assert_eq!(with(&sheet, &[(72, 4)]), 5, "an arrow of kind 4");
    assert_eq!(with(&sheet, &[(73, 1)]), 6, "a pair both included and excluded");
    assert_eq!(both_read(&sheet[..74]), Err(1), "one byte cut");
    assert_eq!(both_read(&[&sheet[..], &[0]].concat()), Err(1), "one byte added");
}

#[test]
fn too_few_bytes() {
    for length in 0..64 {
        assert_eq!(both_read(&SMALLEST[..length]), Err(1), "{length} bytes");
    }
    for length in 0..57 {
        assert_eq!(both_read(&SMALLEST_IN_FIVE[..length]), Err(1), "{length} bytes");
    }
}

/// Of the numbers in either form. What was read is written in six bodies, and is then read as before.
#[test]
fn the_bodies_agree_and_every_number_comes_up() {
    let mut came = BTreeSet::new();
    for case in 0..4_000 {
        let sheets::Sheet { sheet, graph, marking, room } = sheets::make(&mut Dice::new(10, case));
        let read = both_read(&sheet);
        let form = match sheet.first() {
            Some(6) => "six",
            Some(5) => "five",
            _ => "neither",
        };
        if let Ok((graph, marking)) = &read {
            let back = both_write(graph, *marking, 40_000).expect("well-formed");
            assert_eq!(back[..] == sheet[..], form == "six", "case {case}");
            assert_eq!(both_read(&back), read, "case {case}");
        }
        came.insert((form, read.err().unwrap_or(0)));
        came.insert(("write", both_write(&graph, marking, room.len()).err().unwrap_or(0)));
    }
    let mut all = answers("six", &[0, 1, 2, 3, 4, 5, 6]);
    all.append(&mut answers("five", &[0, 1, 2, 3, 4, 5, 6]));
    all.append(&mut answers("neither", &[1]));
    all.append(&mut answers("write", &[0, 2, 4, 6, 18]));
    assert_eq!(came, all);
}
