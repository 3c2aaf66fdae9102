//! "Bit k of the column is bit k mod 8 of byte k/8, lowest first, and each
//! field goes low bit first."

/// How many bits the bytes hold. (u128, so that no length can overflow it.)
pub fn bit_count(bytes: &[u8]) -> u128 {
    8 * bytes.len() as u128
}

/// Bit k, if there is such a bit.
pub fn bit(bytes: &[u8], k: u128) -> Option<bool> {
    if k >= bit_count(bytes) {
        return None;
    }
    let byte = bytes.get((k / 8) as usize)?;
    Some((byte >> (k % 8)) & 1 == 1)
}

/// A field of `width` bits (0 to 64) from bit `place`, low bit first; nothing
/// if one of its bits is missing.
pub fn field(bytes: &[u8], place: u128, width: u128) -> Option<u64> {
    if width > 64 || place.checked_add(width)? > bit_count(bytes) {
        return None;
    }
    let mut number: u64 = 0;
    for k in 0..width {
        if bit(bytes, place + k)? {
            number |= 1u64 << k;
        }
    }
    Some(number)
}

/// Adds a field of `width` bits to a list of bits, low bit first.
pub fn push_field(list: &mut Vec<bool>, number: u64, width: u32) {
    for k in 0..width.min(64) {
        list.push((number >> k) & 1 == 1);
    }
}

/// A list of bits as bytes; "zero bits fill the last byte".
pub fn to_bytes(list: &[bool]) -> Vec<u8> {
    let mut bytes = Vec::new();
    for eight in list.chunks(8) {
        let mut byte: u8 = 0;
        for (k, one) in eight.iter().enumerate() {
            if *one {
                byte |= 1 << k;
            }
        }
        bytes.push(byte);
    }
    bytes
}

/// The rules of the end of a column whose entries stop at bit `place`:
/// 9 for "a whole byte too many", then 10 for "fill bits not zero".
pub fn end_rules(bytes: &[u8], place: u128) -> Result<(), u8> {
    let all = bit_count(bytes);
    if place > all {
        return Err(9);
    }
    if all - place >= 8 {
        return Err(9);
    }
    for k in place..all {
        if bit(bytes, k) == Some(true) {
            return Err(10);
        }
    }
    Ok(())
}
