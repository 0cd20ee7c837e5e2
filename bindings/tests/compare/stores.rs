//! Stores to lend: filled with a pattern, between two guards, so that every element that changes is seen.

const GUARD: usize = 8;

/// An element of a store.
pub trait Element: Copy + Eq {
    /// What stands at a place before a call: no value that a call writes, or hardly ever.
    fn pattern(place: usize) -> Self;
}

impl Element for u8 {
    /// A row has 0 to 3, a clean sheet bytes below 128.
    fn pattern(place: usize) -> u8 {
        0x80 | (place as u8).wrapping_mul(37)
    }
}

impl Element for u16 {
    /// A type is below 4,096.
    fn pattern(place: usize) -> u16 {
        0x8000 | (place as u16).wrapping_mul(40_503)
    }
}

impl Element for u64 {
    /// A word of types may be anything, but it is not this one but by chance.
    fn pattern(place: usize) -> u64 {
        (place as u64 + 1).wrapping_mul(0x9e37_79b9_7f4a_7c15)
    }
}

/// A store that is lent again and again.
#[derive(Default)]
pub struct Lent<T> {
    cells: Vec<T>,
}

impl<T: Element> Lent<T> {
    /// The store with this length, filled anew.
    pub fn lend(&mut self, length: usize) -> &mut [T] {
        self.cells.clear();
        self.cells.extend((0..length + 2 * GUARD).map(T::pattern));
        &mut self.cells[GUARD..GUARD + length]
    }

    /// What is wrong with the store after a call that promised so to change its beginning, and nothing else.
    pub fn fault(&self, promised: &[T]) -> Option<String> {
        let end = GUARD + promised.len();
        let begins = self.cells.get(GUARD..end) == Some(promised);
        if begins && self.kept(0, GUARD) && self.kept(end, self.cells.len()) {
            None
        } else {
            Some(String::from("a store is not as promised"))
        }
    }

    fn kept(&self, from: usize, to: usize) -> bool {
        (from..to).all(|place| self.cells[place] == T::pattern(place))
    }
}

/// All stores that the operations want.
#[derive(Default)]
pub struct Stores {
    pub first: Lent<u64>,
    pub second: Lent<u64>,
    pub book: Lent<u64>,
    pub list: Lent<u16>,
    pub row: Lent<u8>,
    pub clean: Lent<u8>,
    pub out: Lent<u64>,
}
