//! Memory that is lent to a call, with a canary in each cell and guards before and behind: what a call may not touch is compared with what was there.

const GUARD: usize = 8;

/// The canary of a table's entry.
pub fn canary<const N: usize>(at: usize) -> [usize; N] {
    std::array::from_fn(|i| 0xA5C3_0000_0000_0000 + 8 * at + i)
}

pub struct Lent<T> {
    cells: Vec<T>,
    kept: Vec<T>,
}

impl<T: Copy + PartialEq> Lent<T> {
    /// Room for `room` cells; `canary` gives what the cell at a place holds.
    pub fn new(room: usize, canary: impl Fn(usize) -> T) -> Self {
        let kept: Vec<T> = (0..room + 2 * GUARD).map(canary).collect();
        Lent { cells: kept.clone(), kept }
    }

    pub fn room(&self) -> usize {
        self.kept.len() - 2 * GUARD
    }

    pub fn lend(&mut self, len: usize) -> &mut [T] {
        &mut self.cells[GUARD..GUARD + len]
    }

    pub fn first(&self, count: usize) -> &[T] {
        &self.cells[GUARD..GUARD + count]
    }

    /// After a call that was lent `len` cells and may have changed the first `count`: is everything else as it was? The canaries are back after it.
    pub fn kept(&mut self, count: usize, len: usize) -> bool {
        let end = GUARD + len + GUARD;
        let same = self.cells[..GUARD] == self.kept[..GUARD] && self.cells[GUARD + count..end] == self.kept[GUARD + count..end];
        let dirty = if same { GUARD..GUARD + count } else { 0..end };
        self.cells[dirty.clone()].copy_from_slice(&self.kept[dirty]);
        same
    }
}
