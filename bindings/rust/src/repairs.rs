//! Which bits of a message were turned over.
use core::fmt;
use core::iter::{FusedIterator, Take};

/// At most two positions of a message whose bits are turned over. Bit 0 is the top bit of byte 0.
#[derive(Clone, Copy, Debug, PartialEq, Eq, Hash)]
pub enum Repairs {
    /// No bit.
    None,
    /// One bit.
    One(u32),
    /// Two bits. An answer has the lower position first.
    Two(u32, u32),
}

impl Repairs {
    /// How many positions there are: 0, 1 or 2.
    #[must_use]
    pub fn count(self) -> usize {
        self.positions().len()
    }

    /// The positions, in their order.
    #[must_use]
    pub fn positions(self) -> Positions {
        let (count, row) = match self {
            Repairs::None => (0, [0, 0]),
            Repairs::One(j) => (1, [j, 0]),
            Repairs::Two(j, k) => (2, [j, k]),
        };
        Positions(row.into_iter().take(count))
    }
}

/// As a listing has them: `0`, `1:j` or `2:j,k`.
impl fmt::Display for Repairs {
    fn fmt(&self, f: &mut fmt::Formatter<'_>) -> fmt::Result {
        match self {
            Repairs::None => f.write_str("0"),
            Repairs::One(j) => write!(f, "1:{j}"),
            Repairs::Two(j, k) => write!(f, "2:{j},{k}"),
        }
    }
}

impl IntoIterator for Repairs {
    type Item = u32;
    type IntoIter = Positions;
    fn into_iter(self) -> Positions {
        self.positions()
    }
}

/// The positions of [`Repairs`], one after another.
#[derive(Clone, Debug)]
pub struct Positions(Take<core::array::IntoIter<u32, 2>>);

impl Iterator for Positions {
    type Item = u32;
    fn next(&mut self) -> Option<u32> {
        self.0.next()
    }
    fn size_hint(&self) -> (usize, Option<usize>) {
        self.0.size_hint()
    }
}

impl ExactSizeIterator for Positions {}
impl FusedIterator for Positions {}
