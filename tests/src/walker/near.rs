//! "Checkers that would nearly do", each as a small variant, so that a test can
//! show that each differs from the right one on some plan.

use super::check::Stop;
use super::expand::{expansion, expansion_by, given};
use super::open::Refusal;
use super::plan::*;
use super::run::{run_plan, Memories, RunEnd, Tally};
use std::collections::{BTreeMap, BTreeSet};
use std::ops::Range;

// ---- Checkers ----

/// A checker with some of its rules wrong. With none wrong it is right: a third
/// decider, by sets of statuses pushed forward.
#[derive(Clone, Copy, Debug, Default)]
pub struct Checker {
    /// Loops turned at most so often.
    pub turns: Option<usize>,
    /// Arms joined into one status: current, or a flag set, only if so in both.
    pub joins_arms: bool,
    pub write_sets_flag: bool,
    pub copy_sets_flag: bool,
    /// A run ends where it stops, as a run proper does.
    pub ends_at_stop: bool,
    /// The highest instead of the lowest cell.
    pub highest_cell: bool,
    /// What a loop's arm does to a status is found once and kept for all cells.
    pub keeps_rows: bool,
    /// What a fixed loop is taken for.
    pub fixed: Fixed,
    /// The statuses with which a free loop was entered are kept for its next visit.
    pub keeps_entries: bool,
    /// What a step is taken for.
    pub stepping: Stepping,
    /// What the host has of scratch at the start: a current copy, a flag.
    pub scratch_current: bool,
    pub scratch_flagged: bool,
}

/// What a checker or a judge takes a step for.
#[derive(Clone, Copy, Debug, Default, PartialEq, Eq)]
pub enum Stepping {
    /// "k means P, P + k and so on below Q".
    #[default]
    Exact,
    /// Each cell from P to Q - 1, whatever the step.
    Each,
    /// The cells from P to Q - 1 that a step counted from the array's first cell hits.
    FromArray,
    /// One step more, where the array goes on.
    OnceMore,
    /// The first cell alone.
    FirstOnly,
}

impl Stepping {
    fn covers(self, plan: &Plan, x: &Record, cell: usize) -> bool {
        let exact = plan.covered(x);
        let inside = exact.range().contains(&cell);
        let array = plan.cells_of(x.array);
        match self {
            _ if exact.step == 1 => inside,
            Stepping::Exact => exact.contains(cell),
            Stepping::Each => inside,
            Stepping::FromArray => inside && (cell - array.start) % exact.step == 0,
            Stepping::OnceMore => {
                array.contains(&cell) && Covered { to: exact.to + exact.step, ..exact }.contains(cell)
            }
            Stepping::FirstOnly => cell == exact.from,
        }
    }
}

/// What a checker takes a fixed loop for.
#[derive(Clone, Copy, Debug, Default, PartialEq, Eq)]
pub enum Fixed {
    /// "The verdict covers the fixed counts exactly".
    #[default]
    Exact,
    /// A free loop: any number of turns from zero up.
    Free,
    /// So many turns, whatever the count.
    Turns(usize),
    /// Any number of turns from zero up to the count.
    UpTo,
}

/// What has been found: the stops, and for a loop's arm and a status the exits.
#[derive(Default)]
struct Seen {
    stops: BTreeSet<Stop>,
    rows: BTreeMap<(usize, Status), BTreeSet<Status>>,
    /// For a loop's arm and a cell the statuses at which it was entered.
    entries: BTreeMap<(usize, usize), BTreeSet<Status>>,
}

/// Host current, card current, host flag, card flag.
pub type Status = [bool; 4];

const START: Status = [true, false, true, false];

pub fn accepts_all(_: &Plan) -> Option<Stop> {
    None
}

pub fn stops_all(_: &Plan) -> Option<Stop> {
    Some(Stop { record: 0, cell: 0 })
}

impl Checker {
    pub fn check(&self, plan: &Plan) -> Option<Stop> {
        let stops = self.stops(plan);
        let lowest = *stops.first()?;
        if !self.highest_cell {
            return Some(lowest);
        }
        stops.into_iter().filter(|stop| stop.record == lowest.record).max()
    }

    fn start(&self, plan: &Plan, cell: usize) -> BTreeSet<Status> {
        let scratch = [self.scratch_current, false, self.scratch_flagged, false];
        BTreeSet::from([if plan.is_scratch(plan.array_of(cell)) { scratch } else { START }])
    }

    /// All records and cells at which some carried-on run stops.
    pub fn stops(&self, plan: &Plan) -> BTreeSet<Stop> {
        let mut seen = Seen::default();
        for cell in 0..plan.cells() {
            self.block(plan, cell, 0..plan.records.len(), self.start(plan, cell), &mut seen);
        }
        seen.stops
    }

    /// The statuses in which a cell can be at the plan's end.
    pub fn exits(&self, plan: &Plan, cell: usize) -> BTreeSet<Status> {
        self.block(plan, cell, 0..plan.records.len(), self.start(plan, cell), &mut Seen::default())
    }

    fn block(
        &self,
        plan: &Plan,
        cell: usize,
        part: Range<usize>,
        entry: BTreeSet<Status>,
        seen: &mut Seen,
    ) -> BTreeSet<Status> {
        let mut now = entry;
        let mut r = part.start;
        while r < part.end {
            let (first, second) = plan.arms(r);
            let after = second.end;
            now = match plan.records[r].kind {
                BRANCH => {
                    let one = self.block(plan, cell, first, now.clone(), seen);
                    let two = self.block(plan, cell, second, now, seen);
                    let both = &one | &two;
                    if self.joins_arms {
                        join(&both)
                    } else {
                        both
                    }
                }
                LOOP if self.keeps_rows => self.turn_by_rows(plan, cell, first, now, seen),
                LOOP => self.turn(plan, cell, first, now, seen),
                FIXED => self.turn_fixed(plan, cell, r, now, seen),
                _ => self.record(plan, cell, r, &now, seen),
            };
            r = after;
        }
        now
    }

    fn turn(
        &self,
        plan: &Plan,
        cell: usize,
        arm: Range<usize>,
        entry: BTreeSet<Status>,
        seen: &mut Seen,
    ) -> BTreeSet<Status> {
        let mut known = entry;
        if self.keeps_entries {
            let entries = seen.entries.entry((arm.start, cell)).or_default();
            entries.extend(&known);
            known.clone_from(entries);
        }
        // 16 statuses: more turns than that add nothing.
        for _ in 0..self.turns.unwrap_or(16) {
            let turned = self.block(plan, cell, arm.clone(), known.clone(), seen);
            let both = &known | &turned;
            let next = if self.joins_arms { join(&both) } else { both };
            if next == known {
                break;
            }
            known = next;
        }
        known
    }

    fn turn_fixed(
        &self,
        plan: &Plan,
        cell: usize,
        r: usize,
        entry: BTreeSet<Status>,
        seen: &mut Seen,
    ) -> BTreeSet<Status> {
        let (arm, _) = plan.arms(r);
        let turns = match self.fixed {
            Fixed::Free => return self.turn(plan, cell, arm, entry, seen),
            Fixed::Turns(turns) => turns,
            _ => plan.records[r].q,
        };
        let mut now = entry;
        for _ in 0..turns {
            let turned = self.block(plan, cell, arm.clone(), now.clone(), seen);
            let next = if self.fixed == Fixed::UpTo { &now | &turned } else { turned };
            // What a turn leaves as it is, all further turns leave as it is.
            if next == now {
                break;
            }
            now = next;
        }
        now
    }

    fn turn_by_rows(
        &self,
        plan: &Plan,
        cell: usize,
        arm: Range<usize>,
        entry: BTreeSet<Status>,
        seen: &mut Seen,
    ) -> BTreeSet<Status> {
        let mut todo: Vec<Status> = entry.iter().copied().collect();
        let mut known = entry;
        while let Some(status) = todo.pop() {
            let place = (arm.start, status);
            if !seen.rows.contains_key(&place) {
                let exits = self.block(plan, cell, arm.clone(), BTreeSet::from([status]), seen);
                seen.rows.insert(place, exits);
            }
            todo.extend(seen.rows[&place].iter().filter(|&&exit| known.insert(exit)));
        }
        known
    }

    fn record(
        &self,
        plan: &Plan,
        cell: usize,
        r: usize,
        entry: &BTreeSet<Status>,
        seen: &mut Seen,
    ) -> BTreeSet<Status> {
        let x = &plan.records[r];
        let covers = self.stepping.covers(plan, x, cell);
        let marks = x.kind == MARK && x.array == plan.array_of(cell);
        if !covers && !marks {
            return entry.clone();
        }
        let mut exits = BTreeSet::new();
        for &status in entry {
            let (met, after) = self.effect(x, status);
            if !met {
                seen.stops.insert(Stop { record: r, cell });
            }
            if met || !self.ends_at_stop {
                exits.insert(after);
            }
        }
        exits
    }

    fn effect(&self, x: &Record, before: Status) -> (bool, Status) {
        let (own, other) = (x.side, 1 - x.side);
        let (own_flag, other_flag) = (2 + own, 2 + other);
        let mut after = before;
        let mut met = true;
        match x.kind {
            READ => met = before[own],
            WRITE => {
                after[own] = true;
                after[other] = false;
                if self.write_sets_flag {
                    after[own_flag] = true;
                    after[other_flag] = false;
                }
            }
            MARK => {
                after[own_flag] = true;
                after[other_flag] = false;
            }
            NEED if before[own_flag] => {}
            _ => {
                met = before[other];
                after[own] = before[other];
                if x.kind == NEED || self.copy_sets_flag {
                    after[own_flag] = true;
                    after[other_flag] = true;
                }
            }
        }
        (met, after)
    }
}

fn join(statuses: &BTreeSet<Status>) -> BTreeSet<Status> {
    let joined = statuses.iter().copied().reduce(|a, b| std::array::from_fn(|i| a[i] && b[i]));
    joined.into_iter().collect()
}

// ---- Judges ----

/// The judge with one of its rules wrong, or with none: then it is a second
/// judge, cell by cell.
#[derive(Clone, Copy, Debug, PartialEq, Eq)]
pub enum Judge {
    Right,
    WriteInOneArmMeetsW,
    WriteInLoopMeetsW,
    WriteInFixedLoopMeetsNoW,
    /// A stepped write counts for each cell of its range.
    StepNotSeen,
    ReadUnderWIsDeclared,
    SideNotCompared,
    /// 15 only after the records of all passes.
    UnmetLast,
}

impl Judge {
    pub fn passes(self, plan: &Plan) -> Result<(), Refusal> {
        let mut unmet = Vec::new();
        for body in &plan.bodies[1..] {
            self.records(plan, body)?;
            let w = plan.records[body.first..body.steps().start].iter().zip(body.first..);
            let missed = w.filter(|(x, _)| x.kind == W && !self.met(plan, body, x)).map(|(_, r)| r).next();
            match missed {
                Some(r) if self == Judge::UnmetLast => unmet.push(r),
                Some(place) => return Err(Refusal { number: 15, place }),
                None => {}
            }
        }
        unmet.first().map_or(Ok(()), |&place| Err(Refusal { number: 15, place }))
    }

    fn records(self, plan: &Plan, body: &Body) -> Result<(), Refusal> {
        let declared = &plan.records[body.first..body.steps().start];
        for (i, x) in declared.iter().enumerate() {
            if declared[..i].iter().any(|d| d.array == x.array) {
                return Err(Refusal { number: 12, place: body.first + i });
            }
        }
        for place in body.steps() {
            let x = &plan.records[place];
            let allows = |d: &&Record| {
                let side = d.side == x.side || self == Judge::SideNotCompared;
                let reads = d.kind != W || self == Judge::ReadUnderWIsDeclared;
                d.array == x.array && side && if x.kind == READ { reads } else { d.kind != R }
            };
            match x.kind {
                READ | WRITE if !declared.iter().any(|d| allows(&d)) => {
                    return Err(Refusal { number: 13, place })
                }
                COPY | NEED | MARK => return Err(Refusal { number: 14, place }),
                _ => {}
            }
        }
        Ok(())
    }

    /// Cell by cell: is it written on every way?
    fn met(self, plan: &Plan, body: &Body, w: &Record) -> bool {
        plan.cells_of(w.array).all(|cell| self.writes(plan, body.steps(), w.side, cell))
    }

    fn writes(self, plan: &Plan, part: Range<usize>, side: usize, cell: usize) -> bool {
        let mut r = part.start;
        while r < part.end {
            let x = &plan.records[r];
            let (first, second) = plan.arms(r);
            r = second.end;
            let here = match x.kind {
                WRITE => {
                    let side = x.side == side || self == Judge::SideNotCompared;
                    let stepping = if self == Judge::StepNotSeen { Stepping::Each } else { Stepping::Exact };
                    side && stepping.covers(plan, x, cell)
                }
                BRANCH => {
                    let one = self.writes(plan, first, side, cell);
                    let two = self.writes(plan, second, side, cell);
                    if self == Judge::WriteInOneArmMeetsW {
                        one || two
                    } else {
                        one && two
                    }
                }
                LOOP => self == Judge::WriteInLoopMeetsW && self.writes(plan, first, side, cell),
                FIXED => self != Judge::WriteInFixedLoopMeetsNoW && self.writes(plan, first, side, cell),
                _ => false,
            };
            if here {
                return true;
            }
        }
        false
    }
}

// ---- Expanders ----

#[derive(Clone, Copy, Debug, PartialEq, Eq)]
pub enum Expander {
    InsertsNothing,
    MarkBeforeNeed,
    NeedOfRwMissing,
    ArmsNotGrown,
}

impl Expander {
    pub fn expansion(self, plan: &Plan) -> Plan {
        match self {
            Expander::InsertsNothing => expansion_by(plan, &|_| vec![]),
            Expander::MarkBeforeNeed => expansion_by(plan, &|d| given(d).into_iter().rev().collect()),
            Expander::NeedOfRwMissing => expansion_by(plan, &|d| {
                given(d).into_iter().filter(|x| d.kind == R || x.kind == MARK).collect()
            }),
            Expander::ArmsNotGrown => arms_not_grown(plan),
        }
    }

    /// "An expander that says 16 each time".
    pub fn always_16(_: &Plan) -> Refusal {
        Refusal { number: 16, place: 0 }
    }
}

/// The arms of body 0 keep the counts they had.
fn arms_not_grown(plan: &Plan) -> Plan {
    let mut wrong = expansion(plan);
    let script = &plan.records[..plan.bodies[0].count];
    let mut at = 0;
    for x in script {
        if x.kind == CALL {
            let body = &plan.bodies[x.p];
            let twice = plan.records[body.first..body.steps().start].iter().filter(|d| d.kind == RW);
            at += body.count + twice.count();
        } else {
            (wrong.records[at].p, wrong.records[at].q) = (x.p, x.q);
            at += 1;
        }
    }
    wrong
}

// ---- Runners ----

#[derive(Clone, Copy, Debug, PartialEq, Eq)]
pub enum Runner {
    /// "A copy that moves some cells and then stops."
    MovesSomeCells,
    /// "A runner that writes the end state at its first record".
    EndStateAtOnce,
    /// "A runner that says 22 before the first record".
    SpentAtOnce,
    /// "A tally of invented figures".
    InventedTally,
    /// Counts a need that does not copy.
    CountsIdleNeeds,
}

impl Runner {
    pub const ALL: [Runner; 5] = [
        Runner::MovesSomeCells,
        Runner::EndStateAtOnce,
        Runner::SpentAtOnce,
        Runner::InventedTally,
        Runner::CountsIdleNeeds,
    ];

    pub fn run(self, plan: &Plan, memories: &mut Memories, choices: &[u8], tally: &mut Tally) -> RunEnd {
        if self == Runner::SpentAtOnce {
            run_plan(&empty_like(plan), memories, &[], tally);
            return RunEnd::Spent { record: 0 };
        }
        let end = run_plan(plan, memories, choices, tally);
        match (self, end) {
            (Runner::MovesSomeCells, RunEnd::Stopped { record, cell }) => {
                let x = &plan.records[record];
                for moved in plan.covered(x).into_iter().take_while(|&moved| moved < cell) {
                    if x.kind != READ {
                        memories.sides[x.side][moved] = memories.sides[1 - x.side][moved];
                    }
                }
            }
            (Runner::EndStateAtOnce, RunEnd::Spent { .. }) => {
                let mut zeros = choices.to_vec();
                zeros.resize(choices.len() + plan.records.len(), 0);
                run_plan(plan, memories, &zeros, tally);
            }
            (Runner::InventedTally, _) => *tally = Tally { reads: 1, writes: 1, moved: 1 },
            (Runner::CountsIdleNeeds, _) => tally.moved += idle_needs(plan),
            _ => {}
        }
        end
    }
}

/// The same arrays, nothing to do: its run leaves the start.
fn empty_like(plan: &Plan) -> Plan {
    let body = Body { first: 0, count: 0, declarations: 0 };
    plan.like(FileKind::Plain, vec![body], vec![])
}

/// Cells of the needs for the host that stand first: none of them copies.
fn idle_needs(plan: &Plan) -> u64 {
    let first = plan.records.iter().take_while(|x| x.kind == NEED && x.side == HOST);
    first.map(|x| plan.cells_of(x.array).len() as u64).sum()
}
