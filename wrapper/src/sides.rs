use std::fmt;

/// From which sides a front came to a cell: one neighbour at most on each axis. Of two that are earlier than the cell
/// the earlier one is named, and left, above and over where both are as early. A cell has none that no front reaches, a
/// wall as well, and none whose start is no later than the front.
///
/// ```
/// use murgolab::{march, Board, Column, Row, Sides, Slowness, Start};
/// let (slow, starts) = (vec![Slowness::equal(10); 9], vec![Start { cell: 0, time: 0 }]);
/// let front = march(&Board { width: 3, height: 3, storeys: 1, slow, starts }, 300_000_000)?;
/// let last = front.sides[8];
/// assert_eq!((last.row(), last.column(), last.storey()), (Some(Row::Left), Some(Column::Above), None));
/// assert_eq!(last.to_string(), "left and above");
/// assert_eq!((front.sides[0], front.sides[0].to_string()), (Sides::NONE, "none".to_string()));
/// # Ok::<(), murgolab::Refusal>(())
/// ```
///
/// As a byte it is what the library's lists hold: 1 for left or 2 for right, 4 for above or 8 for below, 16 for over or
/// 32 for under, summed. A byte that the library does not give names nothing on an axis of which it has both:
///
/// ```
/// use murgolab::{Column, Sides, Storey};
/// assert_eq!((Sides::from(2 + 4), u8::from(Sides::from(2 + 4))), (Sides::from(6), 6));
/// let odd = Sides::from(1 + 2 + 8 + 32);
/// assert_eq!((odd.row(), odd.column(), odd.storey()), (None, Some(Column::Below), Some(Storey::Under)));
/// ```
// a list of these is lent to the library as a list of bytes
#[repr(transparent)]
#[derive(Clone, Copy, PartialEq, Eq, Hash, Default)]
pub struct Sides(u8);

/// A side in a cell's row.
#[derive(Clone, Copy, Debug, PartialEq, Eq, Hash)]
pub enum Row {
    /// The cell whose number is smaller by 1.
    Left,
    /// The cell whose number is larger by 1.
    Right,
}

/// A side in a cell's column.
#[derive(Clone, Copy, Debug, PartialEq, Eq, Hash)]
pub enum Column {
    /// The cell whose number is smaller by the width.
    Above,
    /// The cell whose number is larger by the width.
    Below,
}

/// A side on another storey.
#[derive(Clone, Copy, Debug, PartialEq, Eq, Hash)]
pub enum Storey {
    /// The cell on the next storey, whose number is larger by width × height.
    Over,
    /// The cell on the storey before, whose number is smaller by width × height.
    Under,
}

impl Sides {
    /// Where a front starts, and where none comes.
    pub const NONE: Sides = Sides(0);

    /// The first of two or the second, by the two bits from `low` on.
    fn of_axis<T>(self, low: u32, first: T, second: T) -> Option<T> {
        match self.0 >> low & 3 {
            1 => Some(first),
            2 => Some(second),
            _ => None,
        }
    }

    /// Left or right.
    pub fn row(self) -> Option<Row> {
        self.of_axis(0, Row::Left, Row::Right)
    }

    /// Above or below.
    pub fn column(self) -> Option<Column> {
        self.of_axis(2, Column::Above, Column::Below)
    }

    /// Over or under.
    pub fn storey(self) -> Option<Storey> {
        self.of_axis(4, Storey::Over, Storey::Under)
    }
}

impl From<u8> for Sides {
    fn from(byte: u8) -> Sides {
        Sides(byte)
    }
}

impl From<Sides> for u8 {
    fn from(sides: Sides) -> u8 {
        sides.0
    }
}

/// `left and above`, `under`, `none`
impl fmt::Display for Sides {
    fn fmt(&self, f: &mut fmt::Formatter) -> fmt::Result {
        let names =
            [self.of_axis(0, "left", "right"), self.of_axis(2, "above", "below"), self.of_axis(4, "over", "under")];
        let named: Vec<&str> = names.into_iter().flatten().collect();
        f.write_str(&if named.is_empty() { "none".to_string() } else { named.join(" and ") })
    }
}

impl fmt::Debug for Sides {
    fn fmt(&self, f: &mut fmt::Formatter) -> fmt::Result {
        write!(f, "Sides({})", self)
    }
}
