//! A floor: what its inputs are and which calls they go through.

use crate::report::Report;
use crate::seen::Seen;
use crate::words::Kind;
use second::cases::Dice;
use std::fmt::Debug;
use std::ops::RangeInclusive;

/// A call's name, and every answer that it can give.
pub struct Table {
    pub name: &'static str,
    pub answers: &'static [&'static [Kind]],
}

pub struct Call<I: 'static> {
    pub table: Table,
    pub run: fn(&I) -> Seen,
}

pub struct Floor<I: 'static> {
    pub name: &'static str,
    pub make: fn(&mut Dice) -> I,
    /// The same with a journal of full length or a store that is nearly filled, where the floor has such.
    pub full: Option<fn(&mut Dice) -> I>,
    /// The number of steps, where it is lawful.
    pub size: fn(&I) -> Option<u64>,
    /// Each of these must come up.
    pub sizes: RangeInclusive<u64>,
    pub calls: &'static [Call<I>],
}

/// As many steps as a graph can have.
pub const ANY_SIZE: RangeInclusive<u64> = 1..=64;

/// A floor of any kind of input.
pub trait Play: Sync {
    fn name(&self) -> &'static str;
    fn tables(&self) -> Vec<&'static Table>;
    fn sizes(&self) -> RangeInclusive<u64>;
    /// Makes an input and puts it through every call. `again` says how to make it once more.
    fn play(&self, dice: Dice, full: bool, again: &str, report: &mut Report);
}

impl<I: Debug> Play for Floor<I> {
    fn name(&self) -> &'static str {
        self.name
    }

    fn tables(&self) -> Vec<&'static Table> {
        self.calls.iter().map(|call| &call.table).collect()
    }

    fn sizes(&self) -> RangeInclusive<u64> {
        self.sizes.clone()
    }

    fn play(&self, mut dice: Dice, full: bool, again: &str, report: &mut Report) {
        let make = if full { self.full } else { Some(self.make) };
        let Some(input) = make.map(|make| make(&mut dice)) else { return };
        if let Some(size) = (self.size)(&input) {
            report.count_size(self.name, size);
        }
        for call in self.calls {
            report.count(&call.table, &(call.run)(&input), || format!("{again}\n  {input:?}"));
        }
    }
}
