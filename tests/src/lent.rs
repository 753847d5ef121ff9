//! Lists that are lent to a call, with marked entries before and behind them that must stay.

use crate::Start;

/// The mark at a place.
pub trait Mark: Copy + PartialEq {
    fn mark(place: usize) -> Self;
}

impl Mark for u8 {
    fn mark(place: usize) -> u8 {
        0xA5 ^ place as u8
    }
}

impl Mark for u32 {
    fn mark(place: usize) -> u32 {
        0xC0DE_0000 ^ place as u32
    }
}

impl Mark for Start {
    fn mark(place: usize) -> Start {
        Start { cell: u32::mark(2 * place), time: u32::mark(2 * place + 1) }
    }
}

pub struct Lent<T> {
    all: Vec<T>,
    length: usize,
}

const BEFORE: usize = 7;
const BEHIND: usize = 9;

impl<T: Mark> Lent<T> {
    pub fn new(content: &[T]) -> Lent<T> {
        let mut all: Vec<T> = (0..BEFORE).map(T::mark).collect();
        all.extend_from_slice(content);
        all.extend((all.len()..all.len() + BEHIND).map(T::mark));
        Lent { all, length: content.len() }
    }

    /// The list itself, for the call.
    pub fn lend(&mut self) -> &mut [T] {
        &mut self.all[BEFORE..BEFORE + self.length]
    }

    /// What the list holds now; it panics where a mark beside it is gone.
    pub fn back(&self) -> &[T] {
        let end = BEFORE + self.length;
        let marked = |place: usize| self.all[place] == T::mark(place);
        let whole = (0..BEFORE).chain(end..self.all.len()).all(marked);
        assert!(whole, "a call wrote beside a list of {} entries that it was lent", self.length);
        &self.all[BEFORE..end]
    }
}

/// The first place where two lists differ, in words; none where they are the same.
pub fn difference<T: PartialEq + std::fmt::Debug>(got: &[T], want: &[T]) -> Option<String> {
    if got.len() != want.len() {
        return Some(format!("{} entries, not {}", got.len(), want.len()));
    }
    let at = (0..got.len()).find(|&i| got[i] != want[i])?;
    Some(format!("entry {} of {} holds {:?}, not {:?}", at, got.len(), got[at], want[at]))
}
