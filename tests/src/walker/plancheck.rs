//! The program's line: "judges a declared plan, checks a plain one, and prints
//! kind (0 if not opened), answer (0 accepted), place or record, cell (0 if
//! none), in decimal."

use super::plan::FileKind;
use super::{check, judge, open};

pub fn line(file: &[u8]) -> String {
    let kind = open(file).map(|plan| plan.kind);
    let verdict = match kind {
        Err(refusal) => refusal.into(),
        Ok(FileKind::Declared) => judge(file),
        Ok(FileKind::Plain) => check(file),
    };
    let (number, place, cell) = verdict.numbers();
    format!("{} {number} {place} {cell}\n", kind.map_or(0, FileKind::number))
}
