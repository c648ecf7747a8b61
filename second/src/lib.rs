//! The procedure box a second time, twice: `model` decides what is right, `peer` is what the box is raced against.
//! `data` holds what crosses the border, `cases` makes inputs, `sample` is the small sample job, `program` is the
//! model as a program of its own, and `alike` sets two such programs side by side.

#![forbid(unsafe_code)]

pub mod alike;
pub mod cases;
pub mod data;
pub mod model;
pub mod peer;
pub mod program;
pub mod sample;

#[cfg(test)]
mod tests;
