//! Logs, request (i) of document 02: "The router logs each executed record, each
//! test of a branch or loop, and each turn of a fixed loop at its start, as a
//! two-byte record number, low byte first."

use super::open::{open, Refusal};
use super::plan::*;
use super::run::{Machine, Memories, Tally};
use super::verdict::of_kind;

/// What is said of a log: number (0 accepted), the place of a refusal by opening,
/// and the entry, from 0, that 30 and 31 name.
#[derive(Clone, Copy, Debug, PartialEq, Eq)]
pub struct Logged {
    pub number: u16,
    pub place: usize,
    pub entry: u64,
}

impl Logged {
    pub const ACCEPTED: Logged = Logged { number: 0, place: 0, entry: 0 };

    fn at(number: u16, entry: usize) -> Logged {
        Logged { number, place: 0, entry: entry as u64 }
    }
}

/// A log held against a plan: "29 first, all after 11".
pub fn log(file: &[u8], log: &[u8]) -> Logged {
    match ready(file, log) {
        Ok(plan) => log_plan(&plan, log.chunks_exact(2).map(two_bytes)),
        Err(Refusal { number, place }) => Logged { number, place, entry: 0 },
    }
}

fn ready(file: &[u8], log: &[u8]) -> Result<Plan, Refusal> {
    let plan = open(file)?;
    of_kind(&plan, FileKind::Plain)?;
    if log.len() % 2 == 1 {
        return Err(Refusal { number: 29, place: 0 });
    }
    Ok(plan)
}

/// Where a run may stand: its next record, and the fixed loops that hold it.
type Position = (usize, Turns);

/// "a log is accepted exactly if it is the beginning of a run and no entry of it
/// is stuck": all places where a run with the entries so far may stand. What the
/// entries do to the memories is the same for all of them.
pub fn log_plan(plan: &Plan, entries: impl Iterator<Item = usize>) -> Logged {
    let end = plan.records.len();
    let flow = plan.flow(0..end, end);
    let [mut host, mut card, mut latest] = [(); 3].map(|()| vec![0; plan.cells()]);
    let mut memories = Memories { sides: [&mut host, &mut card], latest: &mut latest };
    let mut tally = Tally::default();
    let mut machine = Machine::start(plan, &mut memories, &mut tally);
    let mut may_stand = vec![(0, Turns::default())];
    for (i, entry) in entries.enumerate() {
        may_stand =
            may_stand.into_iter().filter_map(|place| goes_on(plan, &flow, place, entry)).flatten().collect();
        if may_stand.is_empty() {
            return Logged::at(30, i);
        }
        let record = &plan.records[entry];
        if matches!(record.kind, READ..=MARK) && machine.act(record).is_err() {
            return Logged::at(31, i);
        }
    }
    Logged::ACCEPTED
}

/// Where a run that stands there may stand after this entry, if it goes on with it.
fn goes_on(plan: &Plan, flow: &Flow, (mut at, mut turns): Position, entry: usize) -> Option<Vec<Position>> {
    // The end of a fixed loop is no entry.
    while at < plan.records.len() && plan.records[at].kind == FIXED && turns.over(at) {
        at = turns.next(plan, flow, at);
    }
    if at == plan.records.len() || at != entry {
        return None;
    }
    Some(match plan.records[at].kind {
        FIXED => {
            let next = turns.next(plan, flow, at);
            vec![(next, turns)]
        }
        // Two empty arms lead to one place.
        BRANCH | LOOP if flow.first(at) == flow.second(at) => vec![(flow.first(at), turns)],
        BRANCH | LOOP => vec![(flow.first(at), turns.clone()), (flow.second(at), turns)],
        _ => vec![(flow.first(at), turns)],
    })
}

/// The log of a run on a list of choices, stops aside, of at most so many entries.
pub fn log_of(plan: &Plan, choices: &[u8], most: usize) -> Vec<u16> {
    let mut choices = choices.iter();
    log_by(plan, most, |_| choices.next().map(|&choice| choice != 0))
}

/// The same where each record's test is asked for its choice.
pub fn log_by(plan: &Plan, most: usize, mut choice: impl FnMut(usize) -> Option<bool>) -> Vec<u16> {
    let end = plan.records.len();
    let flow = plan.flow(0..end, end);
    let mut turns = Turns::default();
    let mut entries = Vec::new();
    let mut at = 0;
    while at < end && entries.len() < most {
        let kind = plan.records[at].kind;
        if kind == FIXED {
            if !turns.over(at) {
                entries.push(at as u16);
            }
            at = turns.next(plan, &flow, at);
            continue;
        }
        let first = !matches!(kind, BRANCH | LOOP) || {
            let Some(first) = choice(at) else { break };
            first
        };
        entries.push(at as u16);
        at = if first { flow.first(at) } else { flow.second(at) };
    }
    entries
}

/// A log as its bytes.
pub fn log_bytes(entries: &[u16]) -> Vec<u8> {
    entries.iter().flat_map(|entry| entry.to_le_bytes()).collect()
}
