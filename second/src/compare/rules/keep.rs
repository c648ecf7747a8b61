use super::{take::ANSWERS, Input};
use crate::border;
use crate::floor::{Call, Table};
use crate::lent;
use crate::seen::Seen;
use crate::words::by_crowd;
use second::cases::Case;
use second::{model, peer};

pub const CALL: Call<Input> = Call { table: Table { name: "keep", answers: ANSWERS }, run };

fn run(input: &Input) -> Seen {
    let &Case { ref graph, marking, entry } = &input.case;
    let (mut right, mut ours, mut peers) = (marking, lent::Words::new(marking), marking);
    let answer = model::keep(&input.graph, &mut right, entry);
    let mut seen = Seen::new(by_crowd(answer.number, answer.waiting));
    seen.ask(graph, &answer, |g| border::keep(g, &mut ours.content, entry), |g| peer::keep(g, &mut peers, entry));
    ours.expect(&mut seen, "the marking kept by ours", &right);
    seen.expect("the marking kept by peer", &right, &peers);
    seen
}
