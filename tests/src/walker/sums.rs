//! The check sums of any bytes, from the words of document 01, with the
//! remainder after each byte that document 02 speaks of.

/// "with bytes numbered from 1 [..] the sum of all bytes modulo 251, then the
/// sum of number × byte modulo 251."
pub fn sums(bytes: &[u8]) -> [u8; 2] {
    let (mut sum, mut weighted, mut number) = (0u32, 0u32, 0u32);
    for &byte in bytes {
        number = (number + 1) % 251;
        sum = (sum + u32::from(byte)) % 251;
        weighted = (weighted + number * u32::from(byte)) % 251;
    }
    [sum as u8, weighted as u8]
}

/// The sums of a front and a back from those of each: "the back's sums are
/// complete before a byte or the length of the front is known", and each byte
/// of the back has a number higher by the front's length.
pub fn joined(front: &[u8], back: [u8; 2]) -> [u8; 2] {
    let [sum, weighted] = sums(front).map(u64::from);
    let [back_sum, back_weighted] = back.map(u64::from);
    let moved = front.len() as u64 % 251 * back_sum;
    [((sum + back_sum) % 251) as u8, ((weighted + moved + back_weighted) % 251) as u8]
}
