//! The parsed plan: "Side 0 is the host, side 1 the card. Cells are numbered
//! from 0 through all arrays in order. Records are numbered from 0 through all
//! bodies in order."

use std::ops::Range;

pub const HOST: usize = 0;
pub const CARD: usize = 1;

pub const READ: u8 = 1;
pub const WRITE: u8 = 2;
pub const COPY: u8 = 3;
pub const NEED: u8 = 4;
pub const MARK: u8 = 5;
pub const BRANCH: u8 = 6;
pub const LOOP: u8 = 7;
pub const CALL: u8 = 8;
pub const FIXED: u8 = 9;
pub const R: u8 = 16;
pub const W: u8 = 17;
pub const RW: u8 = 18;

pub const MAX_ARRAYS: usize = 32;
pub const MAX_BODIES: usize = 32;
pub const MAX_CELLS: usize = 4096;
pub const MAX_RECORDS: usize = 1024;
pub const MAX_CHOICES: usize = 65_536;
/// "Q turns from 1 to 4,096", and the most that a product of counts may be.
pub const MAX_TURNS: usize = 4096;
/// "The highest bit of an array's length now marks scratch".
pub const SCRATCH_BIT: usize = 0x8000;

/// Bytes of the header, of an array's entry, of a body's entry, of a record,
/// of the tail.
pub const HEADER: usize = 4;
pub const ARRAY_ENTRY: usize = 2;
pub const BODY_ENTRY: usize = 4;
pub const RECORD: usize = 8;
pub const TAIL: usize = 2;

/// "Byte 0: kind, 1 declared, 2 plain."
#[derive(Clone, Copy, Debug, PartialEq, Eq)]
pub enum FileKind {
    Declared,
    Plain,
}

impl FileKind {
    pub fn number(self) -> u8 {
        match self {
            FileKind::Declared => 1,
            FileKind::Plain => 2,
        }
    }
}

/// "A record: kind, side, array, zero, then two numbers of two bytes, P and Q."
/// "Byte 3 of kinds 1 to 3 becomes a step". P and Q are wide here: the arms of an
/// expansion can pass 16 bits.
#[derive(Clone, Copy, Debug, PartialEq, Eq)]
pub struct Record {
    pub kind: u8,
    pub side: usize,
    pub array: usize,
    pub step: usize,
    pub p: usize,
    pub q: usize,
}

impl Record {
    pub fn from_bytes(b: &[u8]) -> Record {
        Record {
            kind: b[0],
            side: b[1] as usize,
            array: b[2] as usize,
            step: b[3] as usize,
            p: two_bytes(&b[4..]),
            q: two_bytes(&b[6..]),
        }
    }

    pub fn to_bytes(self) -> [u8; RECORD] {
        let [p0, p1] = u16::try_from(self.p).expect("P fits").to_le_bytes();
        let [q0, q1] = u16::try_from(self.q).expect("Q fits").to_le_bytes();
        [self.kind, self.side as u8, self.array as u8, self.step as u8, p0, p1, q0, q1]
    }
}

/// The cells `from`, `from` + `step` and so on below `to`.
#[derive(Clone, Copy, Debug, PartialEq, Eq)]
pub struct Covered {
    pub from: usize,
    pub to: usize,
    pub step: usize,
}

impl Covered {
    /// Each cell of a range.
    pub fn each(cells: Range<usize>) -> Covered {
        Covered { from: cells.start, to: cells.end, step: 1 }
    }

    pub fn contains(&self, cell: usize) -> bool {
        (self.from..self.to).contains(&cell) && (cell - self.from) % self.step == 0
    }

    pub fn count(&self) -> usize {
        (self.to - self.from).div_ceil(self.step)
    }

    pub fn range(&self) -> Range<usize> {
        self.from..self.to
    }
}

impl IntoIterator for Covered {
    type Item = usize;
    type IntoIter = std::iter::StepBy<Range<usize>>;

    fn into_iter(self) -> Self::IntoIter {
        self.range().step_by(self.step)
    }
}

/// "Numbers of two bytes have the low byte first."
pub fn two_bytes(b: &[u8]) -> usize {
    b[0] as usize + 256 * b[1] as usize
}

/// A body: its records are `first` to `first + count - 1`, its declarations
/// the first `declarations` of them.
#[derive(Clone, Copy, Debug, PartialEq, Eq)]
pub struct Body {
    pub first: usize,
    pub count: usize,
    pub declarations: usize,
}

impl Body {
    pub fn end(&self) -> usize {
        self.first + self.count
    }

    /// The records after the declarations.
    pub fn steps(&self) -> Range<usize> {
        self.first + self.declarations..self.end()
    }
}

#[derive(Clone, Debug, PartialEq, Eq)]
pub struct Plan {
    pub kind: FileKind,
    /// First cell of each array, and behind the last one the number of cells.
    starts: Vec<usize>,
    /// Of each array whether it is scratch.
    scratch: Vec<bool>,
    pub bodies: Vec<Body>,
    pub records: Vec<Record>,
}

impl Plan {
    pub fn new(kind: FileKind, lengths: &[usize], bodies: Vec<Body>, records: Vec<Record>) -> Plan {
        let mut starts = vec![0];
        for length in lengths {
            starts.push(starts[starts.len() - 1] + length);
        }
        let scratch = vec![false; lengths.len()];
        Plan { kind, starts, scratch, bodies, records }
    }

    /// The same with these of its arrays scratch.
    pub fn with_scratch(self, scratch: Vec<bool>) -> Plan {
        assert_eq!(scratch.len(), self.arrays());
        Plan { scratch, ..self }
    }

    /// A plan with the same arrays.
    pub fn like(&self, kind: FileKind, bodies: Vec<Body>, records: Vec<Record>) -> Plan {
        Plan { kind, starts: self.starts.clone(), scratch: self.scratch.clone(), bodies, records }
    }

    pub fn arrays(&self) -> usize {
        self.starts.len() - 1
    }

    pub fn cells(&self) -> usize {
        self.starts[self.arrays()]
    }

    pub fn lengths(&self) -> Vec<usize> {
        (0..self.arrays()).map(|a| self.cells_of(a).len()).collect()
    }

    /// The cells of an array, numbered through all arrays.
    pub fn cells_of(&self, array: usize) -> Range<usize> {
        self.starts[array]..self.starts[array + 1]
    }

    /// Whether an array is scratch, one of the "Grids nobody has filled".
    pub fn is_scratch(&self, array: usize) -> bool {
        self.scratch[array]
    }

    pub fn has_scratch(&self) -> bool {
        self.scratch.contains(&true)
    }

    /// The array that holds a cell.
    pub fn array_of(&self, cell: usize) -> usize {
        self.starts.partition_point(|&start| start <= cell) - 1
    }

    /// The cells that a record touches: P to Q − 1 of its array, with a step "P,
    /// P + k and so on below Q", for a need the whole array, for every other kind
    /// none. "0 and 1 mean each cell".
    pub fn covered(&self, record: &Record) -> Covered {
        match record.kind {
            READ | WRITE | COPY => {
                let first = self.starts[record.array];
                Covered { from: first + record.p, to: first + record.q, step: record.step.max(1) }
            }
            NEED => Covered::each(self.cells_of(record.array)),
            _ => Covered::each(0..0),
        }
    }

    /// Both arms of a branch at `r`, or the arm of a loop (free or fixed) and an
    /// empty one; two empty ones at any other record.
    pub fn arms(&self, r: usize) -> (Range<usize>, Range<usize>) {
        let record = &self.records[r];
        let (p, q) = match record.kind {
            BRANCH => (record.p, record.q),
            LOOP | FIXED => (record.p, 0),
            _ => (0, 0),
        };
        (r + 1..r + 1 + p, r + 1 + p..r + 1 + p + q)
    }

    /// Where each record of a part of a body leads, `exit` being what follows it.
    pub fn flow(&self, part: Range<usize>, exit: usize) -> Flow {
        let mut flow = Flow { offset: part.start, next: vec![(exit, exit); part.len()] };
        self.lay(part, exit, &mut flow);
        flow
    }

    fn lay(&self, part: Range<usize>, exit: usize, flow: &mut Flow) {
        let entry = |arm: &Range<usize>, empty: usize| if arm.is_empty() { empty } else { arm.start };
        let mut r = part.start;
        while r < part.end {
            let (first, second) = self.arms(r);
            let after = if second.end < part.end { second.end } else { exit };
            flow.next[r - flow.offset] = match self.records[r].kind {
                BRANCH => (entry(&first, after), entry(&second, after)),
                LOOP | FIXED => (entry(&first, r), after),
                _ => (after, after),
            };
            // The last record of a loop's arm leads back to the loop's test, or to
            // the next turn of a fixed one.
            let back = if matches!(self.records[r].kind, LOOP | FIXED) { r } else { after };
            self.lay(first, back, flow);
            r = second.end;
            self.lay(second, after, flow);
        }
    }

    /// The plan as a file with its check bytes.
    pub fn to_bytes(&self) -> Vec<u8> {
        let mut file = vec![self.kind.number(), self.arrays() as u8, self.bodies.len() as u8, 0];
        for (length, &scratch) in self.lengths().iter().zip(&self.scratch) {
            let bit = if scratch { SCRATCH_BIT } else { 0 };
            file.extend(((length + bit) as u16).to_le_bytes());
        }
        for body in &self.bodies {
            file.extend((body.count as u16).to_le_bytes());
            file.extend([body.declarations as u8, 0]);
        }
        for record in &self.records {
            file.extend(record.to_bytes());
        }
        let check = check_bytes(&file);
        file.extend(check);
        file
    }
}

/// Where a record leads: after it, at a nonzero choice first, at a zero choice second;
/// at a fixed loop into its next turn first, behind it second.
#[derive(Clone, Debug)]
pub struct Flow {
    offset: usize,
    next: Vec<(usize, usize)>,
}

impl Flow {
    pub fn first(&self, r: usize) -> usize {
        self.next[r - self.offset].0
    }

    pub fn second(&self, r: usize) -> usize {
        self.next[r - self.offset].1
    }
}

/// The fixed loops that hold a position, outermost first: the record of each, and
/// how many of its turns are still to come after the one under way.
#[derive(Clone, Debug, Default, PartialEq, Eq, Hash)]
pub struct Turns(Vec<(usize, usize)>);

impl Turns {
    /// Whether all turns of the fixed loop at `r` have been taken at this visit.
    pub fn over(&self, r: usize) -> bool {
        self.0.last() == Some(&(r, 0))
    }

    /// Where the fixed loop at `r` leads now: "Q turns", at each visit anew,
    /// "taking no choice".
    pub fn next(&mut self, plan: &Plan, flow: &Flow, r: usize) -> usize {
        let left = match self.0.pop() {
            Some((held_by, left)) if held_by == r => left,
            outside => {
                self.0.extend(outside);
                plan.records[r].q
            }
        };
        if left == 0 {
            return flow.second(r);
        }
        self.0.push((r, left - 1));
        flow.first(r)
    }
}

/// "with bytes numbered from 1 up to the check bytes, the sum of all bytes
/// modulo 251, then the sum of number × byte modulo 251." The largest file has
/// 8,388 bytes; 64 bits hold both sums of any file that fits in memory here.
pub fn check_bytes(bytes: &[u8]) -> [u8; TAIL] {
    let mut sum = 0u64;
    let mut weighted = 0u64;
    for (number, &byte) in (1u64..).zip(bytes) {
        sum += u64::from(byte);
        weighted += number * u64::from(byte);
    }
    [(sum % 251) as u8, (weighted % 251) as u8]
}
