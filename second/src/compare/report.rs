//! Counts what came and prints it.

use crate::floor::{Play, Table};
use crate::seen::Seen;
use std::collections::{BTreeMap, BTreeSet};

/// From so many cases on, an answer that never came up is a fault of the comparison itself.
const ENOUGH: u64 = 20_000;

/// So many differences are printed; the others are only counted.
const SHOWN: u64 = 5;

pub struct Report {
    /// For each call, how often each kind of answer came.
    came: BTreeMap<&'static str, BTreeMap<u64, u64>>,
    /// For each floor, the step counts that came.
    sizes: BTreeMap<&'static str, BTreeSet<u64>>,
    differences: u64,
}

impl Report {
    pub fn new(floors: &[&dyn Play]) -> Self {
        let none = |table: &Table| table.answers.iter().copied().flatten().map(|(kind, _)| (*kind, 0)).collect();
        let tables = floors.iter().flat_map(|floor| floor.tables());
        Report {
            came: tables.map(|table| (table.name, none(table))).collect(),
            sizes: floors.iter().map(|floor| (floor.name(), BTreeSet::new())).collect(),
            differences: 0,
        }
    }

    pub fn count_size(&mut self, floor: &'static str, size: u64) {
        self.sizes.entry(floor).or_default().insert(size);
    }

    /// Counts a call's answers, and as one difference whatever was wrong with them.
    pub fn count(&mut self, table: &Table, seen: &Seen, input: impl FnOnce() -> String) {
        let mut faults = seen.faults.clone();
        for kind in &seen.kinds {
            match self.came.get_mut(table.name).and_then(|came| came.get_mut(kind)) {
                Some(times) => *times += 1,
                None => faults.push(format!("model: {kind}, which is no answer of this call")),
            }
        }
        if faults.is_empty() {
            return;
        }
        self.differences += 1;
        if self.differences <= SHOWN {
            println!("difference in {}: {}", table.name, input());
            faults.iter().for_each(|fault| println!("  {fault}"));
        }
    }

    /// Prints the tables and says whether all is well.
    pub fn close(&self, floors: &[&dyn Play], cases: u64, full: u64) -> bool {
        println!("{:18} {:>6}  {:32} {:>10}", "call", "number", "", "times");
        let mut missing = Vec::new();
        for floor in floors {
            floor.tables().iter().for_each(|table| self.print(table, &mut missing));
            let sizes = &self.sizes[floor.name()];
            println!("{}: {} of the {} sizes", floor.name(), sizes.len(), floor.sizes().count());
            let missed = floor.sizes().filter(|n| !sizes.contains(n));
            missing.extend(missed.map(|n| format!("{} of {n} steps", floor.name())));
        }
        let covered = cases < ENOUGH || missing.is_empty();
        if !covered {
            println!("never came up: {}", missing.join(", "));
        }
        println!("of each floor, and {full} of full length:");
        println!("{cases} cases, {} differences", self.differences);
        covered && self.differences == 0
    }

    fn print(&self, table: &Table, missing: &mut Vec<String>) {
        for (kind, words) in table.answers.iter().copied().flatten() {
            let times = self.came[table.name][kind];
            let number = kind % 256;
            println!("{:18} {number:>6}  {words:32} {times:>10}", table.name);
            if times == 0 {
                missing.push(format!("{} {number} ({words})", table.name));
            }
        }
    }
}
