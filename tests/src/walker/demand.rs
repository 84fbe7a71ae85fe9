//! Demand 3, clause by clause, on a declared plan that the judge accepts, its
//! expansion held as records, and a list of choices of any length:
//!
//! - no record is stuck; "Plans with such an array are free from stops if their
//!   expansion passes the check";
//! - each read gets the stamp of the latest write of its cells;
//! - at each moment each cell has the stamp of its latest write on some side, a
//!   cell of scratch "from the cell's first write";
//! - in a finished run each array moves, between two declared writes, exactly
//!   once if a pass after the first, up to and including the second, declares R
//!   or RW of it on the side opposite to the first, and otherwise never; of
//!   scratch "the first interval begins with its first mark", and before it the
//!   array does not move.

use super::check;
use super::plan::*;

/// What a run has shown, for the counts of a test.
#[derive(Clone, Debug, Default, PartialEq, Eq)]
pub struct Shown {
    pub finished: bool,
    /// Stuck, in a plan with scratch whose expansion does not pass the check.
    pub stopped: bool,
    pub passes: usize,
    pub reads: usize,
    pub writes: usize,
    pub moves: usize,
    pub moved_cells: usize,
    pub intervals: usize,
}

/// The clause that fails.
#[derive(Clone, Debug, PartialEq, Eq)]
pub enum Breach {
    Stuck {
        record: usize,
        cell: usize,
    },
    ReadGetsOther {
        record: usize,
        cell: usize,
    },
    NowhereCurrent {
        moment: usize,
        cell: usize,
    },
    /// The needs and marks executed are not those of the passes reached.
    OtherDeclarations,
    Moves {
        array: usize,
        moved: usize,
        due: usize,
    },
}

/// `expansion` is a parameter so that a wrong expander can be shown to fail.
pub fn demand_3(declared: &Plan, expansion: &Plan, choices: &[u8]) -> Result<Shown, Breach> {
    let mut run = Run::start(expansion);
    run.every_cell_somewhere()?;
    let ended = run.go(choices);
    let stopped = matches!(ended, Err(Breach::Stuck { .. })) && may_stop(expansion);
    let finished = if stopped { false } else { ended? };
    let calls = calls_reached(declared, choices);
    let mut intervals = 0;
    if !stopped {
        let made = declarations_made(declared, &calls, &run.executed)?;
        for array in (0..declared.arrays()).filter(|_| finished) {
            intervals += moves_as_due(array, declared.is_scratch(array), &made)?;
        }
    }
    Ok(Shown {
        finished,
        stopped,
        passes: calls.len(),
        reads: run.reads,
        writes: run.history.len(),
        moves: run.executed.iter().filter(|x| x.copied).count(),
        moved_cells: run.moved_cells,
        intervals,
    })
}

/// Scratch, and an expansion that does not pass the check.
fn may_stop(expansion: &Plan) -> bool {
    expansion.has_scratch() && check::summary(expansion).is_some()
}

// ---- The run of the expansion, stamps without limit ----

/// A stamp that a copy holds; `None` is "never", which equals no stamp.
type Stamp = Option<u64>;

/// An executed need or mark; `copied` for a need that copies.
#[derive(Clone, Copy, Debug)]
struct Executed {
    kind: u8,
    side: usize,
    array: usize,
    copied: bool,
}

struct Run<'a> {
    plan: &'a Plan,
    copies: [Vec<Stamp>; 2],
    latest: Vec<u64>,
    flags: [Vec<bool>; 2],
    /// The executed write records in order: the k-th has stamp k.
    history: Vec<usize>,
    /// The stamp of each cell's latest write in the history.
    last_write: Vec<u64>,
    executed: Vec<Executed>,
    reads: usize,
    moved_cells: usize,
    moment: usize,
}

impl<'a> Run<'a> {
    fn start(plan: &'a Plan) -> Run<'a> {
        let (cells, arrays) = (plan.cells(), plan.arrays());
        let filled: Vec<bool> = (0..arrays).map(|array| !plan.is_scratch(array)).collect();
        let on_host = (0..cells).map(|cell| filled[plan.array_of(cell)].then_some(0)).collect();
        Run {
            plan,
            copies: [on_host, vec![None; cells]],
            latest: vec![0; cells],
            flags: [filled, vec![false; arrays]],
            history: Vec::new(),
            last_write: vec![0; cells],
            executed: Vec::new(),
            reads: 0,
            moved_cells: 0,
            moment: 0,
        }
    }

    /// True if it ends finished, false if out of choices.
    fn go(&mut self, choices: &[u8]) -> Result<bool, Breach> {
        let end = self.plan.records.len();
        let flow = self.plan.flow(0..end, end);
        let mut turns = Turns::default();
        let mut choices = choices.iter();
        let mut at = 0;
        while at < end {
            if self.plan.records[at].kind == FIXED {
                at = turns.next(self.plan, &flow, at);
                continue;
            }
            if matches!(self.plan.records[at].kind, BRANCH | LOOP) {
                let Some(&choice) = choices.next() else { return Ok(false) };
                at = if choice != 0 { flow.first(at) } else { flow.second(at) };
                continue;
            }
            self.execute(at)?;
            self.moment += 1;
            self.every_cell_somewhere()?;
            at = flow.first(at);
        }
        Ok(true)
    }

    fn execute(&mut self, at: usize) -> Result<(), Breach> {
        let x = self.plan.records[at];
        let cells = self.plan.covered(&x);
        match x.kind {
            READ => {
                self.current(at, x.side, cells)?;
                self.reads += 1;
                for cell in cells {
                    if self.copies[x.side][cell] != Some(self.stamp_from_history(cell)) {
                        return Err(Breach::ReadGetsOther { record: at, cell });
                    }
                }
            }
            WRITE => {
                self.history.push(at);
                let stamp = self.history.len() as u64;
                for cell in cells {
                    self.copies[x.side][cell] = Some(stamp);
                    self.latest[cell] = stamp;
                    self.last_write[cell] = stamp;
                }
            }
            COPY => self.copy(at, x.side, cells)?,
            NEED => {
                let copied = !self.flags[x.side][x.array];
                if copied {
                    self.copy(at, x.side, cells)?;
                    self.flags[HOST][x.array] = true;
                    self.flags[CARD][x.array] = true;
                }
                self.executed.push(Executed { kind: NEED, side: x.side, array: x.array, copied });
            }
            _ => {
                self.flags[x.side][x.array] = true;
                self.flags[1 - x.side][x.array] = false;
                self.executed.push(Executed { kind: MARK, side: x.side, array: x.array, copied: false });
            }
        }
        Ok(())
    }

    /// "The latest write of a cell is the last executed write record that
    /// covers it, and its stamp is that record's k; before any, the stamp is 0."
    fn stamp_from_history(&self, cell: usize) -> u64 {
        let covers = |&record: &usize| self.plan.covered(&self.plan.records[record]).contains(cell);
        self.history.iter().rposition(covers).map_or(0, |before| before as u64 + 1)
    }

    fn current(&self, record: usize, side: usize, cells: Covered) -> Result<(), Breach> {
        for cell in cells {
            if self.copies[side][cell] != Some(self.latest[cell]) {
                return Err(Breach::Stuck { record, cell });
            }
        }
        Ok(())
    }

    fn copy(&mut self, at: usize, side: usize, cells: Covered) -> Result<(), Breach> {
        self.current(at, 1 - side, cells)?;
        self.moved_cells += cells.count();
        for cell in cells {
            self.copies[side][cell] = self.copies[1 - side][cell];
        }
        Ok(())
    }

    fn every_cell_somewhere(&self) -> Result<(), Breach> {
        for cell in 0..self.plan.cells() {
            let stamp = Some(self.last_write[cell]);
            if stamp == Some(0) && self.plan.is_scratch(self.plan.array_of(cell)) {
                continue;
            }
            if self.copies[HOST][cell] != stamp && self.copies[CARD][cell] != stamp {
                return Err(Breach::NowhereCurrent { moment: self.moment, cell });
            }
        }
        Ok(())
    }
}

// ---- The passes of the run ----

/// "The passes of a run are the calls that body 0 reaches on the same list of
/// choices, in order, a call in a loop counting again at each turn. The branches
/// and loops inside a called pass take their choices from that list too."
pub fn calls_reached(declared: &Plan, choices: &[u8]) -> Vec<usize> {
    let mut choices = choices.iter();
    let mut calls = Vec::new();
    walk(declared, 0, &mut choices, &mut |pass| calls.push(pass));
    calls
}

/// Walks a body; `None` if the choices are spent inside it.
fn walk(
    plan: &Plan,
    body: usize,
    choices: &mut std::slice::Iter<u8>,
    reached: &mut dyn FnMut(usize),
) -> Option<()> {
    let part = plan.bodies[body].steps();
    let flow = plan.flow(part.clone(), part.end);
    let mut turns = Turns::default();
    let mut at = part.start;
    while at < part.end {
        at = match plan.records[at].kind {
            BRANCH | LOOP if *choices.next()? != 0 => flow.first(at),
            BRANCH | LOOP => flow.second(at),
            FIXED => turns.next(plan, &flow, at),
            CALL => {
                reached(plan.records[at].p);
                walk(plan, plan.records[at].p, choices, reached)?;
                flow.first(at)
            }
            _ => flow.first(at),
        };
    }
    Some(())
}

/// A declaration that a call makes when it is reached.
struct Made {
    kind: u8,
    side: usize,
    array: usize,
    /// Whether its need copied.
    moved: bool,
}

/// The declarations of each call in order, tied to the needs and marks that
/// the expansion's run executed.
fn declarations_made(
    declared: &Plan,
    calls: &[usize],
    executed: &[Executed],
) -> Result<Vec<Vec<Made>>, Breach> {
    let mut executed = executed.iter();
    let mut made = Vec::new();
    for &call in calls {
        let body = &declared.bodies[call];
        let mut by_call = Vec::new();
        for x in &declared.records[body.first..body.steps().start] {
            let mut next = |kind| {
                let found = executed.next().filter(|e| (e.kind, e.side, e.array) == (kind, x.side, x.array));
                found.ok_or(Breach::OtherDeclarations)
            };
            let moved = match x.kind {
                R => next(NEED)?.copied,
                W => next(MARK)?.copied,
                _ => {
                    let moved = next(NEED)?.copied;
                    next(MARK)?;
                    moved
                }
            };
            by_call.push(Made { kind: x.kind, side: x.side, array: x.array, moved });
        }
        made.push(by_call);
    }
    match executed.next() {
        None => Ok(made),
        Some(_) => Err(Breach::OtherDeclarations),
    }
}

// ---- The moves of an array between two declared writes ----

/// A declared write: the call that makes it, `None` for the start, and its side.
type Write = (Option<usize>, usize);

/// Gives the number of intervals. The first one begins at the start, on the
/// host, of scratch "with its first mark"; the last one ends with the run.
fn moves_as_due(array: usize, scratch: bool, made: &[Vec<Made>]) -> Result<usize, Breach> {
    let mut writes: Vec<Write> = if scratch { vec![] } else { vec![(None, HOST)] };
    for (call, by_call) in made.iter().enumerate() {
        let here = by_call.iter().filter(|d| d.array == array && d.kind != R);
        writes.extend(here.map(|d| (Some(call), d.side)));
    }
    if scratch {
        let end = writes.first().map_or(made.len(), |(first, _)| first.map_or(0, |call| call + 1));
        let moved = made[..end].iter().flatten().filter(|d| d.array == array && d.moved).count();
        if moved != 0 {
            return Err(Breach::Moves { array, moved, due: 0 });
        }
    }
    for (i, &(first, side)) in writes.iter().enumerate() {
        let from = first.map_or(0, |call| call + 1);
        let end = writes.get(i + 1).map_or(made.len(), |(second, _)| second.map_or(0, |call| call + 1));
        // "a pass after the first, up to and including the second"
        interval(array, side, made.get(from..end).unwrap_or(&[]))?;
    }
    Ok(writes.len())
}

/// "the need of an RW still belongs to the interval that this RW closes": the
/// RW that begins the interval is not among these passes.
fn interval(array: usize, first_side: usize, passes: &[Vec<Made>]) -> Result<(), Breach> {
    let of_array = || passes.iter().flatten().filter(|d| d.array == array);
    let moved = of_array().filter(|d| d.moved).count();
    let due = usize::from(of_array().any(|d| d.kind != W && d.side != first_side));
    if moved == due {
        Ok(())
    } else {
        Err(Breach::Moves { array, moved, due })
    }
}

#[cfg(test)]
mod tests {
    use super::*;

    fn one_read() -> Plan {
        let read = Record { kind: READ, side: HOST, array: 0, step: 0, p: 0, q: 1 };
        let body = Body { first: 0, count: 1, declarations: 0 };
        Plan::new(FileKind::Plain, &[1], vec![body], vec![read])
    }

    /// No run proper breaks these two clauses; states that no run reaches do.
    #[test]
    fn clauses_can_fail() {
        let plan = one_read();
        let mut run = Run::start(&plan);
        assert_eq!(run.every_cell_somewhere(), Ok(()));
        run.copies[HOST][0] = Some(7);
        assert_eq!(run.every_cell_somewhere(), Err(Breach::NowhereCurrent { moment: 0, cell: 0 }));
        run.latest[0] = 7;
        assert_eq!(run.execute(0), Err(Breach::ReadGetsOther { record: 0, cell: 0 }));
    }
}
