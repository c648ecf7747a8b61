mod lap;

pub use lap::run;
