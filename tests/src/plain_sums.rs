//! The check sums in plain Rust without a remainder for each byte, for the
//! benchmark: safe code, one function for each shape.

pub const ROW: usize = 32;
/// 22 rows: the sum of each byte of a column times the number of its row fits
/// 16 bits, 255 × (1 + .. + 22).
pub const BAND: usize = 22 * ROW;
/// 64 bands: all sums of a column fit 32 bits.
pub const STRETCH: usize = 64 * BAND;
/// Fewer bytes than these are added one by one.
const FEW: usize = 128;

/// One byte at a time from the last to the first, as the library had it: a
/// byte in front adds one to the number of each byte after it.
pub fn by_bytes(bytes: &[u8]) -> [u8; 2] {
    let (plain, weighted) = in_front(bytes, (0, 0));
    [plain as u8, weighted as u8]
}

fn in_front(bytes: &[u8], back: (u64, u64)) -> (u64, u64) {
    let (mut plain, mut weighted) = back;
    for &byte in bytes.iter().rev() {
        plain += u64::from(byte);
        weighted += plain;
    }
    (plain % 251, weighted % 251)
}

/// All columns of a row at a time, as the library has it.
pub fn by_columns(bytes: &[u8]) -> [u8; 2] {
    let rows = if bytes.len() < FEW { 0 } else { bytes.len() / ROW * ROW };
    let (mut plain, mut weighted) = in_front(&bytes[rows..], (0, 0));
    for stretch in bytes[..rows].rchunks(STRETCH) {
        let (stretch_plain, stretch_weighted) = totals(stretch);
        weighted = (stretch_weighted + stretch.len() as u64 * plain + weighted) % 251;
        plain = (stretch_plain + plain) % 251;
    }
    [plain as u8, weighted as u8]
}

/// The sums of columns over the bands taken so far: of the bytes, of each byte
/// times the number of its row in its band, and for each band the sums of all
/// bytes behind it.
#[derive(Default)]
struct Taken {
    columns: [u32; ROW],
    rows: [u32; ROW],
    behind: [u32; ROW],
}

impl Taken {
    fn add(&mut self, band: &[u8]) {
        let (plain, weighted) = band_columns(band);
        for i in 0..ROW {
            self.behind[i] += self.columns[i];
            self.columns[i] += u32::from(plain[i]);
            self.rows[i] += u32::from(weighted[i]);
        }
    }
}

/// The sums of a stretch of whole rows. Only its last band may be short.
fn totals(stretch: &[u8]) -> (u64, u64) {
    let (bands, short) = stretch.split_at(stretch.len() / BAND * BAND);
    let mut taken = Taken::default();
    taken.add(short);
    for band in bands.rchunks_exact(BAND) {
        taken.add(band);
    }
    let plain = total(&taken.columns);
    let before = ROW as u64 * (total(&taken.rows) - plain) + BAND as u64 * total(&taken.behind);
    (plain, before + numbered(&taken.columns))
}

/// The sums of a band's columns: of the bytes, and of each byte times the
/// number of its row from 1.
fn band_columns(band: &[u8]) -> ([u16; ROW], [u16; ROW]) {
    let (mut plain, mut weighted) = ([0u16; ROW], [0u16; ROW]);
    for row in band.rchunks_exact(ROW) {
        for i in 0..ROW {
            plain[i] += u16::from(row[i]);
        }
        for i in 0..ROW {
            weighted[i] += plain[i];
        }
    }
    (plain, weighted)
}

fn total(columns: &[u32; ROW]) -> u64 {
    columns.iter().map(|&sum| u64::from(sum)).sum()
}

/// The sum of each column times its number from 1.
fn numbered(columns: &[u32; ROW]) -> u64 {
    let (mut plain, mut weighted) = (0, 0);
    for &sum in columns.iter().rev() {
        plain += u64::from(sum);
        weighted += plain;
    }
    weighted
}
