//! Lists that are kept from call to call, and what is allocated.

use murgolab::*;
use std::alloc::{GlobalAlloc, Layout, System};
use std::cell::Cell;

thread_local! {
    /// Bytes that this thread has asked for.
    static ASKED: Cell<usize> = const { Cell::new(0) };
}

struct Counting;

// SAFETY: the system's allocator does all of the work
unsafe impl GlobalAlloc for Counting {
    unsafe fn alloc(&self, layout: Layout) -> *mut u8 {
        ASKED.with(|asked| asked.set(asked.get() + layout.size()));
        System.alloc(layout)
    }

    unsafe fn dealloc(&self, pointer: *mut u8, layout: Layout) {
        System.dealloc(pointer, layout)
    }
}

#[global_allocator]
static COUNTING: Counting = Counting;

/// How many bytes are asked for while the work is done.
fn asked_for(work: impl FnOnce()) -> usize {
    let before = ASKED.with(Cell::get);
    work();
    ASKED.with(Cell::get) - before
}

/// Slownesses 1 to 40 along the rows and down the columns, the same both ways in a house, with walls in between, and a
/// start in the first cell.
fn board((width, height, storeys): (u32, u32, u32)) -> Board {
    let along = |c: u32| 1 + (c * 31 % 40) as u16;
    let down = |c: u32| if storeys > 1 { along(c) } else { 1 + (c * 17 % 40) as u16 };
    let open = |c: u32| if c % 7 == 3 { Slowness::WALL } else { Slowness::new(along(c), down(c)) };
    let slow = (0..width * height * storeys).map(open).collect();
    Board { width, height, storeys, slow, starts: vec![Start { cell: 0, time: 3 }] }
}

const SIDES: [(u32, u32, u32); 10] = [
    (5, 4, 1),
    (1, 1, 1),
    (40, 30, 1),
    (3, 5, 8),
    (3, 256, 1),
    (40, 30, 1),
    (256, 1, 1),
    (2, 2, 1),
    (20, 30, 2),
    (5, 4, 1),
];
const TILES: Tiles = Tiles { across: 3, down: 2 };

/// Sides that no call leaves.
fn odd() -> Sides {
    Sides::from(0xAA)
}

/// Large boards behind small ones and small ones behind large ones.
#[test]
fn lists_that_are_kept_give_what_new_ones_give() {
    let mut work = Work::new();
    for sides in SIDES {
        let board = board(sides);
        let (marched, ran) = (march(&board, 900), tile_run(&board, TILES, 50, 900));
        let (marched, ran) = (marched.expect("a good board"), ran.expect("a good board"));
        let (mut times, mut sides) = (vec![7; board.size()], vec![odd(); board.size()]);
        assert_eq!(work.march(&board, 900, &mut times, &mut sides), Ok(marched.reached));
        assert_eq!((&times, &sides), (&marched.times, &marched.sides));
        times.fill(8);
        sides.fill(odd());
        assert_eq!(work.tile_run(&board, TILES, 50, 900, &mut times, &mut sides), Ok(ran.rounds));
        assert_eq!((&times, &sides), (&ran.times, &ran.sides));
        assert_eq!((ran.times, ran.sides), (marched.times, marched.sides));
        let (mut other_times, mut other_sides) = (vec![400; board.size()], vec![odd(); board.size()]);
        times.fill(400);
        let altered = one_round(&board, TILES, 500, &mut other_times, &mut other_sides);
        assert_eq!(work.one_round(&board, TILES, 500, &mut times, &mut sides), altered);
        assert!(times == other_times && sides == other_sides && altered.expect("a good board") > 0);
        assert!(!sides.contains(&odd()), "a byte is not written");
    }
}

#[test]
fn a_refused_call_leaves_times_and_sides_and_the_lists_can_be_used_again() {
    let (mut work, board) = (Work::new(), board((5, 4, 1)));
    let wrong = [0, 1, 19, 21, 400];
    let wrong_times = wrong.map(|length| (length, 20, Refusal::TimesLength));
    let wrong_sides = wrong.map(|length| (20, length, Refusal::Room));
    let wrong_both = wrong.map(|length| (length, length, Refusal::TimesLength));
    for (times_length, sides_length, refusal) in wrong_times.into_iter().chain(wrong_sides).chain(wrong_both) {
        let (mut times, mut sides) = (vec![7; times_length], vec![odd(); sides_length]);
        assert_eq!(work.march(&board, 900, &mut times, &mut sides), Err(refusal));
        assert_eq!(work.tile_run(&board, TILES, 50, 900, &mut times, &mut sides), Err(refusal));
        assert_eq!(work.one_round(&board, TILES, 900, &mut times, &mut sides), Err(refusal));
        assert_eq!((times, sides), (vec![7; times_length], vec![odd(); sides_length]));
    }
    let (mut times, mut sides) = (vec![7; 20], vec![odd(); 20]);
    let no_board = Board { width: 0, ..board.clone() };
    let no_house = Board { storeys: 0, slow: vec![], ..board.clone() };
    let no_tiles = Tiles { across: 0, ..TILES };
    assert_eq!(work.march(&no_board, 900, &mut times, &mut sides), Err(Refusal::SidesOfBoard));
    assert_eq!(work.tile_run(&no_board, TILES, 50, 900, &mut times, &mut sides), Err(Refusal::SidesOfBoard));
    assert_eq!(work.march(&no_house, 900, &mut times, &mut sides), Err(Refusal::Storeys));
    assert_eq!(work.one_round(&no_house, TILES, 900, &mut times, &mut sides), Err(Refusal::Storeys));
    assert_eq!(work.one_round(&board, no_tiles, 900, &mut times, &mut sides), Err(Refusal::SidesOfTile));
    assert_eq!((&times, &sides), (&vec![7; 20], &vec![odd(); 20]));
    let reached = march(&board, 900).expect("a good board").reached;
    assert_eq!(work.march(&board, 900, &mut times, &mut sides), Ok(reached));
}

#[test]
fn a_loop_allocates_once() {
    let boards = SIDES.map(board);
    let (largest, most) = (board((256, 256, 1)), 65_536);
    let (mut work, mut times, mut sides) = (Work::new(), vec![NEVER; most], vec![Sides::NONE; most]);
    let single = Tiles { across: 1, down: 1 };
    let first = asked_for(|| assert!(work.one_round(&largest, single, 9, &mut times, &mut sides).is_ok()));
    assert_eq!(first, 4 * most * 4 + most * 4);
    let later = asked_for(|| {
        for board in boards.iter().chain([&largest]) {
            let (times, sides) = (&mut times[..board.size()], &mut sides[..board.size()]);
            assert!(work.march(board, 900, times, sides).is_ok());
            assert!(work.one_round(board, TILES, 900, times, sides).is_ok());
            assert!(work.tile_run(board, TILES, 50, 900, times, sides).is_ok());
        }
    });
    assert_eq!(later, 0);
}

/// A file of a million starts, and lists that are far too long for their board.
#[test]
fn what_is_allocated_is_bounded_by_the_largest_board() {
    let mut file = vec![1, 0, 1, 0, 1, 0, 1, 0, 1, 0, 1, 0, 0, 0, 0, 0];
    file.extend(1_000_000u32.to_le_bytes());
    file.resize(20 + 8 * 1_000_000, 0);
    let reading = asked_for(|| assert_eq!(read_scenario(&file), Err(Refusal::StartOrder { place: Some(1) })));
    assert_eq!(reading, 65_536 * (4 + 8));

    let starts = vec![Start { cell: 0, time: 0 }; 1_000_000];
    let long = Board { starts, slow: vec![Slowness::equal(1); 1_000_000], ..board((2, 2, 1)) };
    let marching = asked_for(|| assert_eq!(march(&long, 9), Err(Refusal::ListLength)));
    assert_eq!(marching, 4 * (1 + 4) * 4 + 4);
    let scenario = Scenario { ticks: 1, ground: Slowness::equal(1), board: long };
    let writing = asked_for(|| assert_eq!(write_scenario(&scenario), Err(Refusal::ListLength)));
    assert_eq!(writing, 20 + 20 * 4);

    // more cells than a board has, on storeys that there may be, and storeys without end
    for (storeys, slow) in [(2, vec![Slowness::equal(1); 131_072]), (u32::MAX, vec![])] {
        let (width, height) = (256, 256);
        let refusal = if storeys == 2 { Refusal::Storeys } else { Refusal::ListLength };
        let house = Board { width, height, storeys, slow, starts: vec![] };
        let marching = asked_for(|| assert_eq!(march(&house, 9), Err(refusal)));
        assert_eq!((house.size(), marching), (0, 0));
    }
}

/// What is read or written takes no more room than it needs.
#[test]
fn what_is_read_and_written_is_as_small_as_it_can_be() {
    let scenario = Scenario { ticks: 10, ground: Slowness::equal(1), board: board((3, 2, 1)) };
    let file = write_scenario(&scenario).expect("a good board");
    let board = read_scenario(&file).expect("a good file").board;
    assert_eq!(file.capacity(), file.len());
    assert_eq!((board.slow.capacity(), board.starts.capacity()), (6, 1));
}
