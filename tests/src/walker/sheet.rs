//! Exercise sheets (document 02, request n): "how many of the 6^n sequences from
//! the usual start stop at place 1, and so on to n, and last how many pass".

use super::plan::{CARD, COPY, HOST, READ, WRITE};
use super::run::NEVER;

pub const LONGEST: u64 = 24;

/// "The six operations are read, write and copy, each on either side."
pub const OPERATIONS: [(u8, usize); 6] =
    [(READ, HOST), (READ, CARD), (WRITE, HOST), (WRITE, CARD), (COPY, HOST), (COPY, CARD)];

/// The one cell: its copies on both sides, its latest stamp, the writes so far.
#[derive(Clone, Copy, Debug, PartialEq, Eq)]
pub struct OneCell {
    copies: [u64; 2],
    latest: u64,
    writes: u64,
}

impl OneCell {
    /// "At the start latest and host are 0 and the card holds 2^64 − 1".
    pub const START: OneCell = OneCell { copies: [0, NEVER], latest: 0, writes: 0 };

    fn current(&self, side: usize) -> bool {
        self.copies[side] == self.latest
    }

    /// The cell after an operation, unless that stops.
    pub fn after(mut self, (kind, side): (u8, usize)) -> Option<OneCell> {
        match kind {
            READ => self.current(side).then_some(self),
            WRITE => {
                self.writes += 1;
                self.copies[side] = self.writes;
                self.latest = self.writes;
                Some(self)
            }
            _ => {
                let met = self.current(1 - side);
                self.copies[side] = self.copies[1 - side];
                met.then_some(self)
            }
        }
    }
}

/// The figures, or 38. Cells of which the same copies are current go on alike, so
/// one of them stands for all, with their number.
pub fn sheet(n: u64) -> Result<Vec<u64>, u16> {
    if n > LONGEST {
        return Err(38);
    }
    let mut figures = vec![];
    let mut going = vec![(OneCell::START, 1u64)];
    for place in 1..=n {
        let mut stopped = 0;
        let mut next: Vec<(OneCell, u64)> = vec![];
        for (cell, many) in going {
            for operation in OPERATIONS {
                let Some(after) = cell.after(operation) else {
                    stopped += many;
                    continue;
                };
                let alike =
                    |other: &OneCell| [0, 1].map(|s| other.current(s)) == [0, 1].map(|s| after.current(s));
                match next.iter_mut().find(|(other, _)| alike(other)) {
                    Some((_, count)) => *count += many,
                    None => next.push((after, many)),
                }
            }
        }
        figures.push(stopped * 6u64.pow((n - place) as u32));
        going = next;
    }
    figures.push(going.iter().map(|(_, many)| many).sum());
    Ok(figures)
}
