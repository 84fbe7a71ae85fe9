//! "An answer is accepted, stopped with record and cell, or refused with number
//! and place."

use super::open::Refusal;
use super::plan::{FileKind, Plan};

#[derive(Clone, Copy, Debug, PartialEq, Eq)]
pub enum Verdict {
    Accepted,
    /// Number 18: "may stop (record and cell)".
    Stopped {
        record: usize,
        cell: usize,
    },
    Refused {
        number: u16,
        place: usize,
    },
}

impl Verdict {
    /// Number, place or record, cell: as `plancheck` prints them.
    pub fn numbers(self) -> (u16, usize, usize) {
        match self {
            Verdict::Accepted => (0, 0, 0),
            Verdict::Stopped { record, cell } => (18, record, cell),
            Verdict::Refused { number, place } => (number, place, 0),
        }
    }
}

impl From<Refusal> for Verdict {
    fn from(refusal: Refusal) -> Verdict {
        Verdict::Refused { number: refusal.number, place: refusal.place }
    }
}

/// "11 judge or expand without kind 1, check or run without kind 2"
pub fn of_kind(plan: &Plan, kind: FileKind) -> Result<(), Refusal> {
    if plan.kind == kind {
        Ok(())
    } else {
        Err(Refusal { number: 11, place: 0 })
    }
}
