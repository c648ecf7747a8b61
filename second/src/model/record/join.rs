use super::{
    bytes::{record, written},
    out_of_range,
};
use crate::model::lowest;

/// The record of the first and then the second. Refusals 2, 10.
pub fn join(n: u64, first: &[u8], second: &[u8]) -> Result<[u8; 65], u64> {
    let records = (record(n, first), record(n, second));
    let both = matches!(records, (Some(_), Some(_)));
    match (lowest(&[(2, out_of_range(n)), (10, !both)]), records) {
        (0, (Some(first), Some(second))) => Ok(written(&first.then(&second))),
        (number, _) => Err(number),
    }
}
