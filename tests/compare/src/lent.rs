//! Lent memory with a pattern in it and around it.

/// How many elements stand on each side of a lent buffer. They never change.
const MARGIN: usize = 64;

/// A buffer within a longer one.
#[derive(Clone, PartialEq, Eq)]
pub struct Lent<T> {
    all: Vec<T>,
    length: usize,
}

impl<T> Lent<T> {
    fn new(length: usize, pattern: impl Fn(usize) -> T) -> Lent<T> {
        Lent { all: (0..length + 2 * MARGIN).map(pattern).collect(), length }
    }

    pub fn buffer(&mut self) -> &mut [T] {
        &mut self.all[MARGIN..MARGIN + self.length]
    }
}

impl Lent<u8> {
    /// Bytes that stand in no text, neither `0` nor `1` among them.
    pub fn bytes(length: usize) -> Lent<u8> {
        Lent::new(length, |index| 128 + (index % 101) as u8)
    }
}

impl Lent<u16> {
    /// Search entries, none of them 0.
    pub fn entries(length: usize) -> Lent<u16> {
        Lent::new(length, |index| 1 + (index * 40_503 % 65_521) as u16)
    }
}
