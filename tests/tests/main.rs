//! All tests, in one program.

mod c;
mod check;
mod docs;
mod examples;
mod expand;
mod fixed;
mod joins;
mod log;
mod open;
mod plancheck;
mod planlist;
mod programs;
mod run;
mod scratch;
mod sheet;
mod steps;
mod streams;
mod sums;
mod walker;
mod written_out;
