//! An encoder of columns at any width, with any values stored in full. It is
//! written for the generators and uses nothing of second/.

/// Bits going into bytes, lowest first.
struct Bits {
    bytes: Vec<u8>,
    count: usize,
}

impl Bits {
    /// Adds the low `width` bits of a number.
    fn push(&mut self, number: u64, width: u32) {
        for k in 0..width {
            if self.count % 8 == 0 {
                self.bytes.push(0);
            }
            if (number >> k) & 1 == 1 {
                self.bytes[self.count / 8] |= 1 << (self.count % 8);
            }
            self.count += 1;
        }
    }
}

/// The zigzag number of the step between two patterns.
pub fn zigzag(from: u64, to: u64) -> u64 {
    let step = to.wrapping_sub(from) as i64;
    ((step << 1) ^ (step >> 63)) as u64
}

/// The pattern that a zigzag number leads to.
pub fn step_by(from: u64, z: u64) -> u64 {
    let step = (z >> 1) ^ (z & 1).wrapping_neg();
    from.wrapping_add(step)
}

/// The marker of a width: 2^n - 1.
pub fn marker(width: u32) -> u64 {
    if width == 0 {
        0
    } else {
        u64::MAX >> (64 - width.min(64))
    }
}

/// A column at a width; value k (from 1) is stored in full where its step
/// does not fit, or where `full` says so.
pub fn encode(values: &[u64], width: u32, full: &dyn Fn(usize) -> bool) -> Vec<u8> {
    let mut bits = Bits { bytes: Vec::new(), count: 0 };
    if values.is_empty() {
        return bits.bytes;
    }
    bits.push(u64::from(width), 8);
    bits.push(values[0], 64);
    for k in 1..values.len() {
        let z = zigzag(values[k - 1], values[k]);
        if z < marker(width) && !full(k) {
            bits.push(z, width);
        } else {
            bits.push(marker(width), width);
            bits.push(values[k], 64);
        }
    }
    bits.bytes
}
