//! The cells of a buffer of docs/REPLAY.md.

/// What a cell holds.
pub trait Cell: Copy + Default + Into<u64> {
    /// "A number that is too large for the place where it goes .. is taken for the largest that fits."
    fn of(number: u64) -> Self;
    fn wrapping_add(self, step: Self) -> Self;
}

macro_rules! cells {
    ($($kind:ty),*) => {$(
        impl Cell for $kind {
            fn of(number: u64) -> Self {
                number.try_into().unwrap_or(Self::MAX)
            }

            fn wrapping_add(self, step: Self) -> Self {
                self.wrapping_add(step)
            }
        }
    )*};
}

cells!(u8, u32, u64);

/// A buffer, and how much of it is lent. The cells after those that are held are 0 still, so that
/// small cases are quick.
#[derive(Clone)]
pub struct Cells<T> {
    held: Vec<T>,
    size: usize,
    lent: usize,
}

impl<T: Cell> Cells<T> {
    pub fn new(size: usize) -> Cells<T> {
        Cells {
            held: Vec::new(),
            size,
            lent: 0,
        }
    }

    pub fn lent(&self) -> &[T] {
        &self.held[..self.lent]
    }

    pub fn lent_mut(&mut self) -> &mut [T] {
        &mut self.held[..self.lent]
    }

    /// The places of n cells from `at` on, "as far as there are such".
    fn places(&self, at: u64, n: u64) -> std::ops::Range<usize> {
        let place = |i: u64| i.min(self.size as u64) as usize;
        place(at)..place(at.saturating_add(n))
    }

    fn hold(&mut self, cells: usize) {
        let cells = cells.max(self.held.len());
        self.held.resize(cells, T::default());
    }
}

/// What the instructions do with a buffer of any kind.
pub trait AnyCells {
    fn set(&mut self, at: u64, cells: &[u64]);
    fn rise(&mut self, at: u64, n: u64, back: u64, step: u64);
    fn lend(&mut self, n: u64);
    fn lent_cells(&self) -> u64;
    fn shown(&self, at: u64, n: u64) -> Vec<u64>;
}

impl<T: Cell> AnyCells for Cells<T> {
    fn set(&mut self, at: u64, cells: &[u64]) {
        let places = self.places(at, cells.len() as u64);
        self.hold(places.end);
        for (old, &new) in self.held[places].iter_mut().zip(cells) {
            *old = T::of(new);
        }
    }

    fn rise(&mut self, at: u64, n: u64, back: u64, step: u64) {
        let places = self.places(at, n);
        self.hold(places.end);
        for i in places {
            let before = (i as u64).checked_sub(back).filter(|_| back > 0);
            let step = T::of(step);
            self.held[i] =
                before.map_or(step, |before| self.held[before as usize].wrapping_add(step));
        }
    }

    fn lend(&mut self, n: u64) {
        self.lent = self.places(0, n).end;
        self.hold(self.lent);
    }

    fn lent_cells(&self) -> u64 {
        self.lent as u64
    }

    fn shown(&self, at: u64, n: u64) -> Vec<u64> {
        let cell = |i: usize| self.held.get(i).map_or(0, |&cell| cell.into());
        self.places(at, n).map(cell).collect()
    }
}
