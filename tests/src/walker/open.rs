//! Opening a file: numbers 1 to 10 and 26 in the table's order. "Places are tried in
//! this order, numbers in the order shown, entries and records ascending; a
//! record gets all its tests before the next one."

use super::plan::*;
use std::ops::Range;

/// "refused with number and place"; the place is 0 unless named.
#[derive(Clone, Copy, Debug, PartialEq, Eq)]
pub struct Refusal {
    pub number: u16,
    pub place: usize,
}

pub fn refuse<T>(number: u16, place: usize) -> Result<T, Refusal> {
    Err(Refusal { number, place })
}

pub fn open(file: &[u8]) -> Result<Plan, Refusal> {
    let kind = header(file)?;
    let (lengths, scratch) = array_entries(file)?;
    let bodies = body_entries(file)?;
    tail(file, &bodies)?;
    let records = file[bodies_at(file)..file.len() - TAIL].chunks_exact(RECORD);
    let plan = Plan::new(kind, &lengths, bodies, records.map(Record::from_bytes).collect());
    let plan = plan.with_scratch(scratch);
    for body in 0..plan.bodies.len() {
        Holder { plan: &plan, body }.arm(0..plan.bodies[body].count, 0, 1)?;
    }
    Ok(plan)
}

/// "Byte 1: arrays, 1 to 32. Byte 2: bodies, 1 to 32, for a plain plan 1.
/// Byte 3: zero."
fn header(file: &[u8]) -> Result<FileKind, Refusal> {
    if file.len() < HEADER {
        return refuse(1, 0);
    }
    let arrays_fit = (1..=MAX_ARRAYS).contains(&arrays(file));
    let bodies_fit = (1..=MAX_BODIES).contains(&bodies(file));
    match file[0] {
        1 if arrays_fit && bodies_fit && file[3] == 0 => Ok(FileKind::Declared),
        2 if arrays_fit && bodies(file) == 1 && file[3] == 0 => Ok(FileKind::Plain),
        _ => refuse(2, 0),
    }
}

fn arrays(file: &[u8]) -> usize {
    file[1] as usize
}

fn bodies(file: &[u8]) -> usize {
    file[2] as usize
}

/// Where the body entries begin, and where the bodies do.
fn body_entries_at(file: &[u8]) -> usize {
    HEADER + ARRAY_ENTRY * arrays(file)
}

fn bodies_at(file: &[u8]) -> usize {
    body_entries_at(file) + BODY_ENTRY * bodies(file)
}

/// Number 3 for the whole contents, then 4: "array length or their total". "Number 4
/// reads the length without that bit", which "marks scratch".
fn array_entries(file: &[u8]) -> Result<(Vec<usize>, Vec<bool>), Refusal> {
    if file.len() < bodies_at(file) {
        return refuse(3, 0);
    }
    let mut total = 0;
    let entries = file[HEADER..body_entries_at(file)].chunks_exact(ARRAY_ENTRY);
    let mut lengths = Vec::new();
    let mut scratch = Vec::new();
    for (array, entry) in entries.map(two_bytes).enumerate() {
        let length = entry % SCRATCH_BIT;
        total += length;
        if !(1..=MAX_CELLS).contains(&length) || total > MAX_CELLS {
            return refuse(4, array);
        }
        lengths.push(length);
        scratch.push(entry >= SCRATCH_BIT);
    }
    Ok((lengths, scratch))
}

/// 5: "fourth byte not zero, more declarations than records, declarations in
/// body 0, total too large".
fn body_entries(file: &[u8]) -> Result<Vec<Body>, Refusal> {
    let mut first = 0;
    let entries = file[body_entries_at(file)..bodies_at(file)].chunks_exact(BODY_ENTRY);
    let mut bodies = Vec::new();
    for (number, entry) in entries.enumerate() {
        let body = Body { first, count: two_bytes(entry), declarations: entry[2] as usize };
        let declares_too_early = number == 0 && body.declarations > 0;
        let declares_too_much = body.declarations > body.count;
        if entry[3] != 0 || declares_too_much || declares_too_early || body.end() > MAX_RECORDS {
            return refuse(5, number);
        }
        first = body.end();
        bodies.push(body);
    }
    Ok(bodies)
}

/// "6 file length not as the contents say; 7 check bytes".
fn tail(file: &[u8], bodies: &[Body]) -> Result<(), Refusal> {
    let records = bodies[bodies.len() - 1].end();
    let check_at = bodies_at(file) + RECORD * records;
    if file.len() != check_at + TAIL {
        return refuse(6, 0);
    }
    if file[check_at..] != check_bytes(&file[..check_at]) {
        return refuse(7, 0);
    }
    Ok(())
}

/// The tests of one body's records.
struct Holder<'a> {
    plan: &'a Plan,
    body: usize,
}

impl Holder<'_> {
    /// Tests the records of an arm (or of the body, at depth 0), positions
    /// counted in the body; `depth` is the number of branches and loops that
    /// hold it, `turns` the product of the counts of the fixed ones among them.
    fn arm(&self, arm: Range<usize>, depth: usize, turns: usize) -> Result<(), Refusal> {
        let mut at = arm.start;
        while at < arm.end {
            let r = self.plan.bodies[self.body].first + at;
            self.fields(r)?;
            self.allowed(r, at)?;
            let (first, second) = self.plan.arms(r);
            let nests = matches!(self.plan.records[r].kind, BRANCH | LOOP | FIXED);
            let left = arm.end - at - 1;
            if nests && (first.len() + second.len() > left || depth > self.deepest()) {
                return refuse(10, r);
            }
            // "26: along some nesting the product of the counts passes 4,096;
            // after 10, place the record"
            let turns = turns * turns_of(&self.plan.records[r]);
            if turns > MAX_TURNS {
                return refuse(26, r);
            }
            let (p, q) = (first.len(), second.len());
            self.arm(at + 1..at + 1 + p, depth + 1, turns)?;
            self.arm(at + 1 + p..at + 1 + p + q, depth + 1, turns)?;
            at += 1 + p + q;
        }
        Ok(())
    }

    /// "In a plain plan each stands inside at most 15 others, in a body of a
    /// declared plan inside at most 7."
    fn deepest(&self) -> usize {
        match self.plan.kind {
            FileKind::Plain => 15,
            FileKind::Declared => 7,
        }
    }

    /// 8: "a field against its rule"; an unknown kind is 9, "no field tested".
    fn fields(&self, r: usize) -> Result<(), Refusal> {
        let record = &self.plan.records[r];
        let (side, array, p, q) = (record.side, record.array, record.p, record.q);
        // "Number 8 no longer covers that byte there."
        let zero = record.step == 0 || matches!(record.kind, READ | WRITE | COPY);
        let named = side <= CARD && array < self.plan.arrays();
        let unnamed = side == 0 && array == 0;
        let fits = match record.kind {
            READ | WRITE | COPY => named && p < q && q <= self.plan.cells_of(array).len(),
            NEED | MARK | R | W | RW => named && p == 0 && q == 0,
            BRANCH => unnamed,
            LOOP => unnamed && q == 0,
            CALL => unnamed && 1 <= p && p < self.plan.bodies.len() && q == 0,
            // "P records, Q turns from 1 to 4,096"
            FIXED => unnamed && (1..=MAX_TURNS).contains(&q),
            _ => return refuse(9, r),
        };
        if fits && zero {
            Ok(())
        } else {
            refuse(8, r)
        }
    }

    /// 9: "kind not allowed there"; kind 9 "wherever kind 7 may stand".
    fn allowed(&self, r: usize, at: usize) -> Result<(), Refusal> {
        let kind = self.plan.records[r].kind;
        let fits = match self.plan.kind {
            FileKind::Plain => matches!(kind, READ..=LOOP | FIXED),
            FileKind::Declared if self.body == 0 => matches!(kind, BRANCH | LOOP | CALL | FIXED),
            FileKind::Declared if at < self.plan.bodies[self.body].declarations => {
                matches!(kind, R | W | RW)
            }
            FileKind::Declared => matches!(kind, READ..=LOOP | FIXED),
        };
        if fits {
            Ok(())
        } else {
            refuse(9, r)
        }
    }
}

/// What a record multiplies the turns of what it holds by: a fixed loop by its
/// count, any other record by 1.
pub fn turns_of(record: &Record) -> usize {
    if record.kind == FIXED {
        record.q
    } else {
        1
    }
}

/// "the body comes back as the caller's own bytes": where they stand in the
/// file, or number 1 to 10, 25 or 26.
pub fn body_view(file: &[u8], body: u64) -> Result<Range<usize>, u16> {
    let plan = open(file).map_err(|refusal| refusal.number)?;
    let number = usize::try_from(body).map_err(|_| 25u16)?;
    let body = plan.bodies.get(number).ok_or(25u16)?;
    let start = bodies_at(file);
    Ok(start + RECORD * body.first..start + RECORD * body.end())
}
