use std::fmt;

/// How slow a front is in a cell: the ticks in which it crosses the cell straight along the row, and those straight
/// down or up the column, each 1 to 4,095; both are 0 for a wall. On a board of several storeys the two are equal, and
/// up or down a storey it takes as long. The calls judge it.
///
/// ```
/// use murgolab::Slowness;
/// let furrow = Slowness::new(10, 30);
/// assert_eq!((furrow.along(), furrow.down()), (10, 30));
/// assert_eq!(Slowness::equal(10), Slowness::new(10, 10));
/// assert_eq!(Slowness::WALL, Slowness::new(0, 0));
/// ```
///
/// As a number it is what the library's lists and the scenario file hold, along + 65,536 × down. A bare number of old
/// lists, 1 to 4,095, is a pair whose second number is 0, and is refused by [`HalfWall`](crate::Refusal::HalfWall):
///
/// ```
/// use murgolab::Slowness;
/// assert_eq!(u32::from(Slowness::new(10, 30)), 10 + 65_536 * 30);
/// assert_eq!(Slowness::from(10 + 65_536 * 30), Slowness::new(10, 30));
/// assert_eq!(Slowness::from(10), Slowness::new(10, 0));
/// ```
// a list of these is lent to the library as a list of its entries
#[repr(transparent)]
#[derive(Clone, Copy, PartialEq, Eq, Hash)]
pub struct Slowness(u32);

impl Slowness {
    /// A cell that no front enters.
    pub const WALL: Slowness = Slowness(0);

    /// Ticks along the row, and down the column.
    pub const fn new(along: u16, down: u16) -> Slowness {
        Slowness(along as u32 | (down as u32) << 16)
    }

    /// The same number of ticks both ways.
    pub const fn equal(ticks: u16) -> Slowness {
        Slowness::new(ticks, ticks)
    }

    /// Ticks along the row.
    pub const fn along(self) -> u16 {
        self.0 as u16
    }

    /// Ticks down the column.
    pub const fn down(self) -> u16 {
        (self.0 >> 16) as u16
    }
}

impl From<u32> for Slowness {
    fn from(entry: u32) -> Slowness {
        Slowness(entry)
    }
}

impl From<Slowness> for u32 {
    fn from(slowness: Slowness) -> u32 {
        slowness.0
    }
}

impl fmt::Debug for Slowness {
    fn fmt(&self, f: &mut fmt::Formatter) -> fmt::Result {
        f.debug_struct("Slowness").field("along", &self.along()).field("down", &self.down()).finish()
    }
}
