//! The memory view: "the answer is a part of the host memory or of the card
//! memory, the host's if all its cells are current, else the card's."

use super::plan::{CARD, HOST};

/// The side whose cells `first` to `end` − 1 the answer is, or 23 or 24.
pub fn memory_view(host: &[u64], card: &[u64], latest: &[u64], first: u64, end: u64) -> Result<usize, u16> {
    let shortest = host.len().min(card.len()).min(latest.len());
    if first >= end || end > shortest as u64 {
        return Err(23);
    }
    let cells = first as usize..end as usize;
    let current = |copies: &[u64]| copies[cells.clone()] == latest[cells.clone()];
    if current(host) {
        Ok(HOST)
    } else if current(card) {
        Ok(CARD)
    } else {
        Err(24)
    }
}
