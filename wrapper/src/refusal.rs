use std::error::Error;
use std::fmt;

/// Makes the enum and all that is said of a number from one table, so that a number is added in one place. Its words
/// may stand in several literals. An entry that ends with a field is of a cause that says which start is at fault.
macro_rules! refusals {
    ($($number:literal => $name:ident, $($words:literal)+ $(, $place:ident)?;)*) => {
        /// Why a call was refused. Of several causes the one that stands first in this line is given:
        /// `1 2 15 3 4 5 21 23 6 7 18 8 9 10 11 12 13 14`. N is width × height × storeys.
        ///
        /// Later versions may know more numbers, so a `match` needs an arm for the others.
        ///
        /// ```
        /// use murgolab::{diagonal, Refusal};
        /// let refusal = diagonal(4_096).unwrap_err();
        /// assert_eq!(refusal, Refusal::Slowness);
        /// assert_eq!(refusal.number(), 5);
        /// assert_eq!(refusal.words(), "a number of a slowness, the ground's too, above 4,095");
        /// assert_eq!(refusal.to_string(), "refused by 5: a number of a slowness, the ground's too, above 4,095");
        /// ```
        ///
        /// Where a start's cell is wrong, the refusal says which start:
        ///
        /// ```
        /// use murgolab::{march, Board, Refusal, Slowness, Start};
        /// let starts = [0, 4, 8, 8].map(|cell| Start { cell, time: 0 }).to_vec();
        /// let mut board = Board { width: 3, height: 3, storeys: 1, slow: vec![Slowness::equal(10); 9], starts };
        /// let refusal = march(&board, 100).unwrap_err();
        /// assert_eq!(refusal, Refusal::StartOrder { place: Some(3) });
        /// assert_eq!(refusal.place(), Some(3));
        /// assert_eq!(refusal.to_string(), "refused by 18: start not above the one before: start 3, counted from 0");
        /// board.starts[1].cell = 9;
        /// assert_eq!(march(&board, 100), Err(Refusal::StartCell { place: Some(1) }));
        /// ```
        #[derive(Clone, Copy, Debug, PartialEq, Eq, Hash)]
        #[non_exhaustive]
        pub enum Refusal {
            $(
                #[doc = concat!($number, ": ", $($words,)+ ".")]
                $name $({
                    /// See [`Refusal::place`].
                    $place: Option<usize>,
                })?,
            )*
            /// A number that this version has no words for: the archive is a later one.
            #[non_exhaustive]
            Unknown(u32),
        }

        impl Refusal {
            /// The refusal that a number stands for, with the place of a start where it is known and the number is 7
            /// or 18; none for 0, which is acceptance.
            ///
            /// ```
            /// use murgolab::Refusal;
            /// assert_eq!(Refusal::of(7, Some(3)), Some(Refusal::StartCell { place: Some(3) }));
            /// assert_eq!(Refusal::of(9, None), Some(Refusal::StartOnWall));
            /// assert_eq!(Refusal::of(0, None), None);
            /// ```
            pub fn of(number: u32, place: Option<usize>) -> Option<Refusal> {
                match number {
                    0 => None,
                    $($number => Some(Refusal::$name $({ $place: place })?),)*
                    other => Some(Refusal::Unknown(other)),
                }
            }

            /// The number that the library answers.
            pub fn number(self) -> u32 {
                match self {
                    $(Refusal::$name { .. } => $number,)*
                    Refusal::Unknown(number) => number,
                }
            }

            /// The cause in words.
            pub fn words(self) -> &'static str {
                match self {
                    $(Refusal::$name { .. } => concat!($($words),+),)*
                    Refusal::Unknown(_) => "a cause that this version of the wrapper does not know",
                }
            }

            /// The position, from 0, of the first start at fault by this cause, where it is
            /// [`StartCell`](Refusal::StartCell) or [`StartOrder`](Refusal::StartOrder). None from
            /// [`tablet_run`](crate::tablet_run), which answers the number alone.
            pub fn place(self) -> Option<usize> {
                match self {
                    $($(Refusal::$name { $place: at } => at,)?)*
                    _ => None,
                }
            }
        }
    };
}

refusals! {
    1 => FileLength, "file under 20 bytes, or not as long as its counts of runs and starts say";
    2 => SidesOfBoard, "width or height not 1 to 256";
    3 => Ticks, "ticks per turn not 1 to 65,535";
    4 => ListLength, "slowness list not N long, or plain start lists of unequal length";
    5 => Slowness, "a number of a slowness, the ground's too, above 4,095";
    6 => Run, "a run not sorted, overlapping, empty, past the board, or of the pair of the ground or a run it touches";
    7 => StartCell, "start cell off the board", place;
    8 => StartTime, "start time above 1,000,000";
    9 => StartOnWall, "start on a wall";
    10 => Range, "horizon or bound above 300,000,000, or stride not 1 to 300,000,000";
    11 => SidesOfTile, "tile width or height not 1 to 256";
    12 => Order, "order does not name every tile once";
    13 => TimesLength, "times list not N long";
    14 => Room, "work list under 4N long, sides list not N long, or a list to be filled too short";
    15 => SmallBoard, "tablet or rings: a side above 32, N above 1,024, or for rings a file above 20,500 bytes";
    18 => StartOrder, "start not above the one before", place;
    21 => HalfWall, "one number of a slowness, the ground's too, 0 and the other not";
    23 => Storeys,
        "storeys not 1 to 8, N above 65,536, or an unequal pair from 2 storeys on "
        "(local rule: over or under not never)";
}

impl fmt::Display for Refusal {
    fn fmt(&self, f: &mut fmt::Formatter) -> fmt::Result {
        write!(f, "refused by {}: {}", self.number(), self.words())?;
        self.place().map_or(Ok(()), |place| write!(f, ": start {}, counted from 0", place))
    }
}

impl Error for Refusal {}
