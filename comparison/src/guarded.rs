//! Memory lent to a call: a slice inside a larger vector, with guard bytes
//! right before and right after it.

#[cfg(target_endian = "big")]
compile_error!("slices are kept as little-endian bytes: this needs a little-endian machine");

/// Guard bytes on each side (at least).
const GUARD: usize = 64;

/// A slice with its guards. The store is of words, so that it is aligned for
/// every element.
pub struct Guarded {
    store: Vec<u64>,
    start: usize,
    length: usize,
    size: usize,
}

/// The guard byte at a place of the store.
fn guard_byte(place: usize) -> u8 {
    (place.wrapping_mul(37) as u8) ^ 0x5B
}

impl Guarded {
    /// The bytes of elements of `size` bytes, put into guarded memory. `salt`
    /// moves the start about, as far as the elements' alignment lets it.
    pub fn new(bytes: &[u8], size: usize, salt: usize) -> Guarded {
        let skew = (salt % 8) / size * size;
        let start = GUARD + skew;
        let all = start + bytes.len() + GUARD;
        let mut guarded = Guarded { store: vec![0; (all + 7) / 8], start, length: bytes.len(), size };
        let end = start + bytes.len();
        let memory = guarded.memory_mut();
        for place in (0..start).chain(end..memory.len()) {
            memory[place] = guard_byte(place);
        }
        memory[start..end].copy_from_slice(bytes);
        guarded
    }

    /// All memory of the store.
    fn memory(&self) -> &[u8] {
        // The words are all there and any byte of them is a valid u8.
        unsafe { std::slice::from_raw_parts(self.store.as_ptr().cast::<u8>(), self.store.len() * 8) }
    }

    /// The same to write to.
    fn memory_mut(&mut self) -> &mut [u8] {
        // As above; any bytes make valid words.
        unsafe { std::slice::from_raw_parts_mut(self.store.as_mut_ptr().cast::<u8>(), self.store.len() * 8) }
    }

    /// The pointer of the slice, never null.
    pub fn pointer<T>(&mut self) -> *mut T {
        self.store.as_mut_ptr().cast::<u8>().wrapping_add(self.start).cast::<T>()
    }

    /// Its number of elements.
    pub fn elements(&self) -> usize {
        self.length / self.size
    }

    /// The bytes of the slice now.
    pub fn bytes(&self) -> &[u8] {
        &self.memory()[self.start..self.start + self.length]
    }

    /// How far from the slice the guard bytes lie that have changed: negative
    /// before it, from 0 on after it.
    pub fn broken_guards(&self) -> Vec<i64> {
        let end = self.start + self.length;
        let mut broken = Vec::new();
        let memory = self.memory();
        for place in (0..self.start).chain(end..memory.len()) {
            if memory[place] != guard_byte(place) {
                let from = if place < self.start { self.start } else { end };
                broken.push(place as i64 - from as i64);
            }
        }
        broken
    }
}
