//! One file a service, each from the words of documents 01 and 02.

pub mod check;
pub mod demand;
pub mod expand;
pub mod judge;
pub mod log;
pub mod near;
pub mod open;
pub mod plan;
pub mod plancheck;
pub mod run;
pub mod sheet;
pub mod sums;
pub mod verdict;
pub mod views;

pub use check::check;
pub use expand::expand;
pub use judge::judge;
pub use log::{log, Logged};
pub use open::{body_view, open, Refusal};
pub use plan::{FileKind, Plan, Record};
pub use run::{run, Memories, RunEnd, Tally};
pub use sheet::sheet;
pub use sums::{joined, sums};
pub use verdict::Verdict;
pub use views::memory_view;
