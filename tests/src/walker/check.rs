//! The check: "The named record is the lowest at which some carried-on run
//! stops, and the cell is the lowest that stops there in some run."
//!
//! Two deciders that share no effect: `brute` searches the states of the
//! carried-on run, `summary` composes what a block does to one cell.

use super::open::open;
use super::plan::*;
use super::verdict::{of_kind, Verdict};
use std::collections::{HashSet, VecDeque};

/// Ordered by the record, then by the cell.
#[derive(Clone, Copy, Debug, PartialEq, Eq, PartialOrd, Ord)]
pub struct Stop {
    pub record: usize,
    pub cell: usize,
}

pub fn check(file: &[u8]) -> Verdict {
    match open(file).and_then(|plan| of_kind(&plan, FileKind::Plain).map(|()| plan)) {
        Err(refusal) => refusal.into(),
        Ok(plan) => verdict(summary(&plan)),
    }
}

pub fn verdict(stop: Option<Stop>) -> Verdict {
    match stop {
        None => Verdict::Accepted,
        Some(Stop { record, cell }) => Verdict::Stopped { record, cell },
    }
}

// ---- Brute force ----

/// Current or stale of the watched cells on both sides (one bit each), and the
/// flags of their arrays.
#[derive(Clone, Copy, Debug, PartialEq, Eq, Hash)]
struct World {
    current: [u64; 2],
    flags: [u32; 2],
}

/// All cells of a small plan at once.
pub fn brute(plan: &Plan) -> Option<Stop> {
    let all: Vec<usize> = (0..plan.cells()).collect();
    brute_on(plan, &all)
}

/// Breadth-first over (position, world); only these cells are watched, at most
/// 64, ascending. Positions are record numbers: "Branches and loops are free:
/// every arm and every count from zero up is possible." Inside fixed loops a
/// position has their turns with it: "The verdict covers the fixed counts exactly
/// and free loops as before."
pub fn brute_on(plan: &Plan, cells: &[usize]) -> Option<Stop> {
    assert!(cells.len() <= 64);
    let end = plan.records.len();
    let flow = plan.flow(0..end, end);
    let watched: Vec<u64> = plan.records.iter().map(|x| mask(cells, plan.covered(x))).collect();
    let arrays: u32 = cells.iter().fold(0, |set, &c| set | 1 << plan.array_of(c));
    // "At the start latest and host are 0 and the card holds never"; flags "at
    // the start set for the host only". Of scratch "both copies hold" never, "its
    // flags are clear".
    let filled = |&array: &usize| !plan.is_scratch(array);
    let on_host = (0..plan.arrays())
        .filter(filled)
        .fold(0, |set, a| set | mask(cells, Covered::each(plan.cells_of(a))));
    let flags = (0..plan.arrays()).filter(filled).fold(0, |set, array| set | 1 << array & arrays);
    let start = World { current: [on_host, 0], flags: [flags, 0] };
    let start = ((0, Turns::default()), start);
    let mut seen = HashSet::from([start.clone()]);
    let mut queue = VecDeque::from([start]);
    let mut lowest: Option<Stop> = None;
    while let Some(((at, turns), world)) = queue.pop_front() {
        if at == end {
            continue;
        }
        let (after, unmet) = carry_on(&plan.records[at], watched[at], arrays, world);
        if unmet != 0 {
            let stop = Stop { record: at, cell: cells[unmet.trailing_zeros() as usize] };
            lowest = Some(lowest.map_or(stop, |known| known.min(stop)));
        }
        for next in places_after(plan, &flow, at, turns) {
            if seen.insert((next.clone(), after)) {
                queue.push_back((next, after));
            }
        }
    }
    lowest
}

/// A position, and the turns of the fixed loops that hold it.
type Place = (usize, Turns);

/// Both ways of a branch or a loop's test; where there is one way, it twice.
fn places_after(plan: &Plan, flow: &Flow, at: usize, mut turns: Turns) -> [Place; 2] {
    if plan.records[at].kind == FIXED {
        let next = (turns.next(plan, flow, at), turns);
        return [next.clone(), next];
    }
    [(flow.first(at), turns.clone()), (flow.second(at), turns)]
}

fn mask(cells: &[usize], covered: Covered) -> u64 {
    let bits = cells.iter().enumerate().filter(|(_, &c)| covered.contains(c));
    bits.fold(0, |set, (i, _)| set | 1 << i)
}

/// One record of a carried-on run: "an unmet record counts as stopping at each
/// unmet cell, and then acts all the same (a stale stamp is copied as it is)."
fn carry_on(record: &Record, cells: u64, arrays: u32, world: World) -> (World, u64) {
    let (side, other) = (record.side, 1 - record.side);
    let array = 1 << record.array & arrays;
    let World { current, flags } = world;
    let mut after = world;
    let mut unmet = 0;
    let copies = record.kind == COPY || (record.kind == NEED && array & !flags[side] != 0);
    if record.kind == READ {
        unmet = cells & !current[side];
    }
    if record.kind == WRITE {
        after.current[side] |= cells;
        after.current[other] &= !cells;
    }
    if copies {
        unmet = cells & !current[other];
        after.current[side] = (current[side] & !cells) | (current[other] & cells);
    }
    if copies && record.kind == NEED {
        after.flags = [flags[0] | array, flags[1] | array];
    }
    if record.kind == MARK {
        after.flags[side] |= array;
        after.flags[other] &= !array;
    }
    (after, unmet)
}

// ---- Summary of a block on one cell ----

/// A status of one cell: host current, card current, host flag, card flag of
/// its array, one bit each.
const STATUSES: usize = 16;
const START: usize = 0b0101;
/// Of scratch: nothing current, no flag.
const SCRATCH_START: usize = 0;
const NO_STOP: u16 = u16::MAX;

/// For each status at entry the possible statuses at exit (one bit each) and
/// the lowest record at which the cell may stop.
#[derive(Clone, Debug, PartialEq, Eq)]
pub struct Summary {
    exits: [u16; STATUSES],
    stop: [u16; STATUSES],
}

/// The lowest stop by one summary for each group of cells that no record tells
/// apart.
pub fn summary(plan: &Plan) -> Option<Stop> {
    assert!(plan.records.len() < NO_STOP as usize);
    let mut lowest: Option<Stop> = None;
    for cell in told_apart(plan) {
        let start = if plan.is_scratch(plan.array_of(cell)) { SCRATCH_START } else { START };
        let record = Summary::of(plan, cell, 0..plan.records.len()).stop[start];
        let record = (record != NO_STOP).then_some(record as usize);
        // Cells ascend, so an equal record keeps the lower cell.
        if let Some(record) = record.filter(|&r| lowest.is_none_or(|known| r < known.record)) {
            lowest = Some(Stop { record, cell });
        }
    }
    lowest
}

/// The first cell of each group: a cell where an array or a record's cells begin
/// or end; with a step each of them begins and ends.
fn told_apart(plan: &Plan) -> Vec<usize> {
    let mut edge = vec![false; plan.cells() + 1];
    for array in 0..plan.arrays() {
        edge[plan.cells_of(array).start] = true;
    }
    for record in &plan.records {
        let cells = plan.covered(record);
        if cells.step == 1 {
            edge[cells.from] = true;
            edge[cells.to] = true;
        } else {
            for cell in cells {
                edge[cell] = true;
                edge[cell + 1] = true;
            }
        }
    }
    (0..plan.cells()).filter(|&cell| edge[cell]).collect()
}

struct Watch<'a> {
    plan: &'a Plan,
    cell: usize,
    array: usize,
}

impl Watch<'_> {
    /// Recursive over nested arms; siblings in a row.
    fn block(&self, from: usize, end: usize) -> Summary {
        let mut so_far = Summary::nothing();
        let mut r = from;
        while r < end {
            let record = &self.plan.records[r];
            let (p, q) = (record.p, record.q);
            match record.kind {
                BRANCH => {
                    let first = self.block(r + 1, r + 1 + p);
                    let second = self.block(r + 1 + p, r + 1 + p + q);
                    so_far.then(&first.or(&second));
                    r += 1 + p + q;
                }
                LOOP => {
                    so_far.then(&self.block(r + 1, r + 1 + p).any_turns());
                    r += 1 + p;
                }
                FIXED => {
                    so_far.then(&self.block(r + 1, r + 1 + p).turns(q));
                    r += 1 + p;
                }
                _ => {
                    if self.touched_by(record) {
                        so_far.then_record(r, record);
                    }
                    r += 1;
                }
            }
        }
        so_far
    }

    fn touched_by(&self, record: &Record) -> bool {
        record.array == self.array && (record.kind == MARK || self.plan.covered(record).contains(self.cell))
    }
}

/// Whether the record is met, and the status that it leaves, met or not.
fn step(record: &Record, status: usize) -> (bool, usize) {
    let own = 1 << record.side;
    let other = 2 >> record.side;
    let (own_flag, other_flag) = (own << 2, other << 2);
    let copied = if status & other != 0 { status | own } else { status & !own };
    match record.kind {
        READ => (status & own != 0, status),
        WRITE => (true, (status | own) & !other),
        COPY => (status & other != 0, copied),
        NEED if status & own_flag != 0 => (true, status),
        NEED => (status & other != 0, copied | own_flag | other_flag),
        _ => (true, (status | own_flag) & !other_flag),
    }
}

fn members(set: u16) -> impl Iterator<Item = usize> {
    let mut left = set;
    std::iter::from_fn(move || {
        let status = left.trailing_zeros() as usize;
        left &= left.wrapping_sub(1);
        (status < STATUSES).then_some(status)
    })
}

impl Summary {
    /// What a part of a plan does to one of its cells.
    pub fn of(plan: &Plan, cell: usize, part: std::ops::Range<usize>) -> Summary {
        Watch { plan, cell, array: plan.array_of(cell) }.block(part.start, part.end)
    }

    pub fn nothing() -> Summary {
        Summary { exits: std::array::from_fn(|entry| 1 << entry), stop: [NO_STOP; STATUSES] }
    }

    fn then_record(&mut self, r: usize, record: &Record) {
        let steps: [(bool, usize); STATUSES] = std::array::from_fn(|status| step(record, status));
        for entry in 0..STATUSES {
            let mut exits = 0;
            for status in members(self.exits[entry]) {
                let (met, after) = steps[status];
                exits |= 1 << after;
                if !met {
                    self.stop[entry] = self.stop[entry].min(r as u16);
                }
            }
            self.exits[entry] = exits;
        }
    }

    pub fn then(&mut self, next: &Summary) {
        for entry in 0..STATUSES {
            let mut exits = 0;
            for status in members(self.exits[entry]) {
                exits |= next.exits[status];
                self.stop[entry] = self.stop[entry].min(next.stop[status]);
            }
            self.exits[entry] = exits;
        }
    }

    fn or(&self, other: &Summary) -> Summary {
        Summary {
            exits: std::array::from_fn(|entry| self.exits[entry] | other.exits[entry]),
            stop: std::array::from_fn(|entry| self.stop[entry].min(other.stop[entry])),
        }
    }

    /// Exactly so many turns, one after the other: the turns that make up the
    /// count, 1, 2, 4 and so on, each the one before it twice.
    pub fn turns(&self, count: usize) -> Summary {
        let mut all = Summary::nothing();
        let mut some = self.clone();
        let mut left = count;
        while left > 0 {
            if left % 2 == 1 {
                all.then(&some);
            }
            some.then(&some.clone());
            left /= 2;
        }
        all
    }

    /// Any number of turns from zero up: the closure of one turn (Warshall).
    fn any_turns(&self) -> Summary {
        let mut reached = self.exits;
        for (entry, exits) in reached.iter_mut().enumerate() {
            *exits |= 1 << entry;
        }
        for through in 0..STATUSES {
            for entry in 0..STATUSES {
                if reached[entry] >> through & 1 != 0 {
                    reached[entry] |= reached[through];
                }
            }
        }
        let lowest = |set| members(set).map(|status| self.stop[status]).min().unwrap_or(NO_STOP);
        Summary { exits: reached, stop: reached.map(lowest) }
    }
}
