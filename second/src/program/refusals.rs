/// The numbers in words: 1 to 18, then 22 and 30.
const WORDS: [&str; 20] = [
    "not laid out as a sheet",
    "a count is out of range",
    "the bodies of the sheet do not fit its counts",
    "something is named that the counts do not have",
    "an arrow of the sheet is wrong or out of order",
    "a step includes and excludes the same step",
    "the bytes of the journal are no multiple of 3, or too many",
    "the marking has a step that the graph does not have",
    "no step has this rank",
    "the record is not well-formed",
    "no such person, step or role",
    "the person does not hold this role",
    "the step's action does not have this role",
    "the step is not included",
    "the step waits for steps that are not done",
    "the record does not apply to the marking",
    "the lap is empty",
    "there is too little room",
    "the store is no whole number of markings from 1 to 2,048",
    "the number of arms is not from 2 to 16",
];

/// What a number means, from 1.
pub fn words(number: u64) -> &'static str {
    match number {
        22 => WORDS[18],
        30 => WORDS[19],
        _ => WORDS[number as usize - 1],
    }
}
