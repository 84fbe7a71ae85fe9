//! The run: "The run is lent host, card and latest memories, a tally, and
//! choice bytes."

use super::open::{open, Refusal};
use super::plan::*;
use super::verdict::of_kind;

/// The card's start: 2^64 − 1, "never".
pub const NEVER: u64 = u64::MAX;

/// "read records, write records, cells moved, from zero"
#[derive(Clone, Copy, Debug, Default, PartialEq, Eq)]
pub struct Tally {
    pub reads: u64,
    pub writes: u64,
    pub moved: u64,
}

/// The lent memories: host and card as sides 0 and 1, and latest.
pub struct Memories<'a> {
    pub sides: [&'a mut [u64]; 2],
    pub latest: &'a mut [u64],
}

#[derive(Clone, Copy, Debug, PartialEq, Eq)]
pub enum RunEnd {
    /// 1 to 11, 19, 20, 26: nothing is changed.
    Refused {
        number: u16,
        place: usize,
    },
    /// 21: "stopped (record and lowest unmet cell)".
    Stopped {
        record: usize,
        cell: usize,
    },
    /// 22: "choices spent (record)".
    Spent {
        record: usize,
    },
    Done(Done),
}

/// "The end answers done, with the choices used, both sets of flags and the
/// number of arrays current on each side by their flags."
#[derive(Clone, Copy, Debug, PartialEq, Eq)]
pub struct Done {
    pub choices_used: usize,
    pub flags: [u32; 2],
    pub arrays_current: [u32; 2],
}

pub fn run(file: &[u8], memories: &mut Memories, choices: &[u8], tally: &mut Tally) -> RunEnd {
    let plan = match ready(file, memories, choices) {
        Err(Refusal { number, place }) => return RunEnd::Refused { number, place },
        Ok(plan) => plan,
    };
    run_plan(&plan, memories, choices, tally)
}

/// "run, before: 19 a memory shorter than the cells; 20 over 65,536 choices"
fn ready(file: &[u8], memories: &Memories, choices: &[u8]) -> Result<Plan, Refusal> {
    let plan = open(file)?;
    of_kind(&plan, FileKind::Plain)?;
    let [host, card] = &memories.sides;
    let shortest = host.len().min(card.len()).min(memories.latest.len());
    if shortest < plan.cells() {
        return Err(Refusal { number: 19, place: 0 });
    }
    if choices.len() > MAX_CHOICES {
        return Err(Refusal { number: 20, place: 0 });
    }
    Ok(plan)
}

/// The run itself, of a plan whose cells the memories hold.
pub fn run_plan(plan: &Plan, memories: &mut Memories, choices: &[u8], tally: &mut Tally) -> RunEnd {
    let end = plan.records.len();
    let flow = plan.flow(0..end, end);
    let mut machine = Machine::start(plan, memories, tally);
    let mut turns = Turns::default();
    let mut used = 0;
    let mut at = 0;
    while at < end {
        let record = &plan.records[at];
        if record.kind == FIXED {
            at = turns.next(plan, &flow, at);
            continue;
        }
        if matches!(record.kind, BRANCH | LOOP) {
            // "Each branch and each test of a loop takes one, nonzero meaning
            // first arm or one more turn."
            let Some(&choice) = choices.get(used) else {
                return RunEnd::Spent { record: at };
            };
            used += 1;
            at = if choice != 0 { flow.first(at) } else { flow.second(at) };
            continue;
        }
        if let Err(cell) = machine.act(record) {
            return RunEnd::Stopped { record: at, cell };
        }
        at = flow.first(at);
    }
    let flags = machine.flags;
    RunEnd::Done(Done { choices_used: used, flags, arrays_current: flags.map(u32::count_ones) })
}

pub(super) struct Machine<'a, 'b> {
    plan: &'a Plan,
    memories: &'a mut Memories<'b>,
    tally: &'a mut Tally,
    flags: [u32; 2],
}

impl<'a, 'b> Machine<'a, 'b> {
    /// "It first writes the start into the plan's cells and the tally." Of scratch
    /// "both copies hold" never, "its flags are clear, latest is 0".
    pub(super) fn start(
        plan: &'a Plan,
        memories: &'a mut Memories<'b>,
        tally: &'a mut Tally,
    ) -> Machine<'a, 'b> {
        let cells = plan.cells();
        memories.sides[HOST][..cells].fill(0);
        memories.sides[CARD][..cells].fill(NEVER);
        memories.latest[..cells].fill(0);
        *tally = Tally::default();
        let mut on_host = (u64::MAX >> (64 - plan.arrays())) as u32;
        for array in (0..plan.arrays()).filter(|&array| plan.is_scratch(array)) {
            memories.sides[HOST][plan.cells_of(array)].fill(NEVER);
            on_host &= !(1 << array);
        }
        Machine { plan, memories, tally, flags: [on_host, 0] }
    }

    /// Does a record, or changes nothing and gives its lowest unmet cell.
    pub(super) fn act(&mut self, record: &Record) -> Result<(), usize> {
        let (side, other) = (record.side, 1 - record.side);
        let cells = self.plan.covered(record);
        let array = 1u32 << record.array;
        match record.kind {
            READ => {
                self.needs_current(side, cells)?;
                self.tally.reads += 1;
            }
            WRITE => {
                // "the k-th executed write record (k from 1) puts stamp k"
                self.tally.writes += 1;
                put(self.memories.sides[side], cells, self.tally.writes);
                put(self.memories.latest, cells, self.tally.writes);
            }
            COPY => self.copy(side, cells)?,
            NEED if self.flags[side] & array != 0 => {}
            NEED => {
                self.copy(side, cells)?;
                self.flags = self.flags.map(|flags| flags | array);
            }
            _ => {
                self.flags[side] |= array;
                self.flags[other] &= !array;
            }
        }
        Ok(())
    }

    /// "needs its cells current on the other side, then copies them to s"
    fn copy(&mut self, side: usize, cells: Covered) -> Result<(), usize> {
        self.needs_current(1 - side, cells)?;
        let [host, card] = &mut self.memories.sides;
        let (from, to) = if side == HOST { (card, host) } else { (host, card) };
        if cells.step == 1 {
            to[cells.range()].copy_from_slice(&from[cells.range()]);
        } else {
            cells.into_iter().for_each(|cell| to[cell] = from[cell]);
        }
        self.tally.moved += cells.count() as u64;
        Ok(())
    }

    fn needs_current(&self, side: usize, cells: Covered) -> Result<(), usize> {
        if cells.step != 1 {
            let (copies, latest) = (&self.memories.sides[side], &self.memories.latest);
            let stale = cells.into_iter().find(|&cell| copies[cell] != latest[cell]);
            return stale.map_or(Ok(()), Err);
        }
        let cells = cells.range();
        let (copies, latest) =
            (&self.memories.sides[side][cells.clone()], &self.memories.latest[cells.clone()]);
        if copies == latest {
            return Ok(());
        }
        let unmet = copies.iter().zip(latest).position(|(copy, latest)| copy != latest);
        Err(cells.start + unmet.expect("some cell is stale"))
    }
}

/// A stamp into these cells of a memory.
fn put(memory: &mut [u64], cells: Covered, stamp: u64) {
    if cells.step == 1 {
        memory[cells.range()].fill(stamp);
    } else {
        cells.into_iter().for_each(|cell| memory[cell] = stamp);
    }
}
