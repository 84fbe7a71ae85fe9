//! Seeded plan files: valid ones of many shapes up to every limit, damaged
//! ones for each number, and lists of choices. It knows the layout of a file
//! and nothing of its meaning, so that it can be wrong about no answer.

mod cases;
mod damage;
mod declared;
mod every;
mod fixed;
mod plain;
mod rng;
mod scratch;
mod steps;

pub use cases::*;
pub use damage::*;
pub use declared::*;
pub use every::*;
pub use fixed::*;
pub use plain::*;
pub use rng::Rng;
pub use scratch::*;
pub use steps::*;

/// A record as its eight bytes; nothing keeps it from being wrong.
pub type Raw = [u8; 8];

pub fn raw(kind: u8, side: u8, array: u8, p: u16, q: u16) -> Raw {
    let [p0, p1] = p.to_le_bytes();
    let [q0, q1] = q.to_le_bytes();
    [kind, side, array, 0, p0, p1, q0, q1]
}

pub fn read(side: u8, array: u8, p: u16, q: u16) -> Step {
    Step::Act(raw(1, side, array, p, q))
}

pub fn write(side: u8, array: u8, p: u16, q: u16) -> Step {
    Step::Act(raw(2, side, array, p, q))
}

pub fn copy(side: u8, array: u8, p: u16, q: u16) -> Step {
    Step::Act(raw(3, side, array, p, q))
}

pub fn need(side: u8, array: u8) -> Step {
    Step::Act(raw(4, side, array, 0, 0))
}

pub fn mark(side: u8, array: u8) -> Step {
    Step::Act(raw(5, side, array, 0, 0))
}

pub fn call(body: u16) -> Step {
    Step::Act(raw(8, 0, 0, body, 0))
}

/// A body as a tree: it is laid out into records with its arm counts.
#[derive(Clone, Debug, PartialEq, Eq)]
pub enum Step {
    Act(Raw),
    Branch(Vec<Step>, Vec<Step>),
    Loop(Vec<Step>),
    /// A fixed loop with its count.
    Fixed(u16, Vec<Step>),
}

pub fn flatten(steps: &[Step]) -> Vec<Raw> {
    let mut records = Vec::new();
    for step in steps {
        match step {
            Step::Act(record) => records.push(*record),
            Step::Branch(first, second) => {
                let (first, second) = (flatten(first), flatten(second));
                records.push(raw(6, 0, 0, first.len() as u16, second.len() as u16));
                records.extend(first);
                records.extend(second);
            }
            Step::Loop(arm) => {
                let arm = flatten(arm);
                records.push(raw(7, 0, 0, arm.len() as u16, 0));
                records.extend(arm);
            }
            Step::Fixed(turns, arm) => {
                let arm = flatten(arm);
                records.push(raw(9, 0, 0, arm.len() as u16, *turns));
                records.extend(arm);
            }
        }
    }
    records
}

/// What a file is made of. An array is the number of its entry: its length, and
/// the bit that marks scratch.
#[derive(Clone, Debug)]
pub struct Draft {
    pub kind: u8,
    pub arrays: Vec<u16>,
    pub bodies: Vec<DraftBody>,
}

#[derive(Clone, Debug)]
pub struct DraftBody {
    pub declarations: u8,
    pub records: Vec<Raw>,
}

impl Draft {
    pub fn plain(arrays: &[u16], steps: &[Step]) -> Draft {
        let body = DraftBody { declarations: 0, records: flatten(steps) };
        Draft { kind: 2, arrays: arrays.to_vec(), bodies: vec![body] }
    }

    /// The length of an array, without the bit, and all of them.
    pub fn length(&self, array: usize) -> usize {
        (self.arrays[array] & !SCRATCH) as usize
    }

    pub fn lengths(&self) -> Vec<u16> {
        self.arrays.iter().map(|entry| entry & !SCRATCH).collect()
    }

    pub fn records(&self) -> usize {
        self.bodies.iter().map(|body| body.records.len()).sum()
    }

    /// Offset of an array's length, of a body's entry, of a record.
    pub fn array_at(&self, array: usize) -> usize {
        4 + 2 * array
    }

    pub fn body_at(&self, body: usize) -> usize {
        4 + 2 * self.arrays.len() + 4 * body
    }

    pub fn record_at(&self, record: usize) -> usize {
        self.body_at(self.bodies.len()) + 8 * record
    }
}

/// The draft as a file with its check bytes.
pub fn encode(draft: &Draft) -> Vec<u8> {
    let mut file = vec![draft.kind, draft.arrays.len() as u8, draft.bodies.len() as u8, 0];
    for length in &draft.arrays {
        file.extend(length.to_le_bytes());
    }
    for body in &draft.bodies {
        file.extend((body.records.len() as u16).to_le_bytes());
        file.extend([body.declarations, 0]);
    }
    for record in draft.bodies.iter().flat_map(|body| &body.records) {
        file.extend(record);
    }
    file.extend([0, 0]);
    repair(&mut file);
    file
}

/// Writes the check bytes that fit the bytes before them. The sums are kept
/// below 251 at each byte, another way than the walker's.
pub fn repair(file: &mut [u8]) {
    let Some(end) = file.len().checked_sub(2) else { return };
    let (mut sum, mut weighted) = (0u32, 0u32);
    for (number, &byte) in (1u32..).zip(&file[..end]) {
        sum = (sum + u32::from(byte)) % 251;
        weighted = (weighted + number % 251 * u32::from(byte)) % 251;
    }
    file[end] = sum as u8;
    file[end + 1] = weighted as u8;
}

/// A list of choices; `more` in a hundred are nonzero.
pub fn choices(rng: &mut Rng, length: usize, more: usize) -> Vec<u8> {
    let nonzero = |rng: &mut Rng| if rng.chance(50) { 1 } else { rng.between(1, 255) as u8 };
    (0..length).map(|_| if rng.chance(more) { nonzero(rng) } else { 0 }).collect()
}
