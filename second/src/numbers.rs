//! "All numbers little-endian."

/// The bytes from `at`, `count` of them, if they are all there.
pub fn bytes_at(bytes: &[u8], at: usize, count: usize) -> Option<&[u8]> {
    let end = at.checked_add(count)?;
    bytes.get(at..end)
}

/// The whole number in `count` bytes from `at`, lowest byte first.
fn number_at(bytes: &[u8], at: usize, count: usize) -> Option<u64> {
    let part = bytes_at(bytes, at, count)?;
    let mut number: u64 = 0;
    for (k, byte) in part.iter().enumerate() {
        number |= u64::from(*byte) << (8 * k);
    }
    Some(number)
}

/// A u16 at a place.
pub fn u16_at(bytes: &[u8], at: usize) -> Option<u16> {
    number_at(bytes, at, 2).map(|number| number as u16)
}

/// A u32 at a place.
pub fn u32_at(bytes: &[u8], at: usize) -> Option<u32> {
    number_at(bytes, at, 4).map(|number| number as u32)
}

/// A 64-bit pattern at a place.
pub fn u64_at(bytes: &[u8], at: usize) -> Option<u64> {
    number_at(bytes, at, 8)
}
