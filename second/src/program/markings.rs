use super::{files::Input, lines::Lines, Answer, Given, Reply};
use crate::data;
use crate::model::Marking;

/// Of 24 bytes.
pub fn stored(input: &Input) -> data::Marking {
    let set = |i: usize| input[8 * i..][..8].iter().rev().fold(0, |set, byte| set << 8 | u64::from(*byte));
    data::Marking::new(set(0), set(1), set(2))
}

pub fn marking(given: &Given) -> Reply {
    let [marking] = given.files();
    Ok(Answer::new(Lines::default().marking(&Marking::read(stored(marking)))))
}
