mod can_end;

pub use can_end::run;
