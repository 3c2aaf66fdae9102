//! One call of one service with all that is lent to it, and what it leaves.
//! A slice is kept as the bytes of its elements, little-endian.

use crate::signature::Service;

/// One argument.
#[derive(Clone, Debug, PartialEq, Eq)]
pub enum Arg {
    Slice(Vec<u8>),
    Number(u64),
}

/// A call.
#[derive(Clone, Debug, PartialEq, Eq)]
pub struct Call {
    pub service: Service,
    pub args: Vec<Arg>,
}

/// What a call leaves: its word and its arguments afterwards.
#[derive(Clone, Debug, PartialEq, Eq)]
pub struct Outcome {
    pub word: u64,
    pub args: Vec<Arg>,
}

/// Elements of two, four or eight bytes as bytes and back.
pub trait Element: Copy {
    const SIZE: usize;
    fn put(self, bytes: &mut Vec<u8>);
    fn get(bytes: &[u8]) -> Self;
}

macro_rules! element {
    ($type:ty, $size:expr) => {
        impl Element for $type {
            const SIZE: usize = $size;
            fn put(self, bytes: &mut Vec<u8>) {
                bytes.extend_from_slice(&self.to_le_bytes());
            }
            fn get(bytes: &[u8]) -> $type {
                let mut own = [0u8; $size];
                own.copy_from_slice(bytes);
                <$type>::from_le_bytes(own)
            }
        }
    };
}

element!(u8, 1);
element!(u16, 2);
element!(u32, 4);
element!(u64, 8);

/// The bytes of a list.
pub fn bytes_of<T: Element>(list: &[T]) -> Vec<u8> {
    let mut bytes = Vec::with_capacity(list.len() * T::SIZE);
    for one in list {
        one.put(&mut bytes);
    }
    bytes
}

/// The list that bytes hold.
pub fn list_of<T: Element>(bytes: &[u8]) -> Vec<T> {
    bytes.chunks_exact(T::SIZE).map(T::get).collect()
}

/// A slice argument of a list.
pub fn slice<T: Element>(list: &[T]) -> Arg {
    Arg::Slice(bytes_of(list))
}

/// A room of some elements, filled with bytes that are never zero and differ
/// from their neighbours.
pub fn room<T: Element>(elements: usize) -> Arg {
    Arg::Slice((0..elements * T::SIZE).map(|k| 0xA1 + (k % 15) as u8).collect())
}

impl Call {
    /// A call of its arguments.
    pub fn new(service: Service, args: Vec<Arg>) -> Call {
        Call { service, args }
    }

    /// The bytes of slice argument k (none for a number).
    pub fn bytes(&self, k: usize) -> &[u8] {
        bytes_in(&self.args, k)
    }

    /// The elements of slice argument k.
    pub fn list<T: Element>(&self, k: usize) -> Vec<T> {
        list_of(self.bytes(k))
    }

    /// The plain number k (0 for a slice).
    pub fn number(&self, k: usize) -> u64 {
        match self.args.get(k) {
            Some(Arg::Number(number)) => *number,
            _ => 0,
        }
    }
}

/// The bytes of slice argument k of a list of arguments.
pub fn bytes_in(args: &[Arg], k: usize) -> &[u8] {
    match args.get(k) {
        Some(Arg::Slice(bytes)) => bytes,
        _ => &[],
    }
}

impl Outcome {
    /// The refusal's number, bits 32 to 39.
    pub fn number(&self) -> usize {
        ((self.word >> 32) & 0xFF) as usize
    }

    /// What the call says, or the page of its refusal: bits 0 to 31.
    pub fn low(&self) -> u32 {
        self.word as u32
    }

    /// The column of its refusal, bits 40 and 41.
    pub fn column(&self) -> usize {
        (self.word >> 40 & 3) as usize
    }

    /// The index of its refusal, bits 42 to 53; all bits from 42 on, so that
    /// one which should not be there shows.
    pub fn index(&self) -> u64 {
        self.word >> 42
    }

    /// The call was not refused.
    pub fn good(&self) -> bool {
        self.number() == 0
    }

    /// The elements of slice argument k afterwards.
    pub fn list<T: Element>(&self, k: usize) -> Vec<T> {
        list_of(bytes_in(&self.args, k))
    }
}
