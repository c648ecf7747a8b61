use super::halves;
use crate::{border, race::race};
use second::peer;

pub fn run() {
    race(
        "join",
        &halves(),
        [0; 65],
        |halves, out| border::join(64, &halves.first, &halves.second, out),
        |halves, out| peer::record::join(64, &halves.first, &halves.second, out),
    );
}
