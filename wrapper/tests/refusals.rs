//! Boards, tiles and files that are no good are refused by the library, and nothing here falls over before.

use murgolab::*;

fn board() -> Board {
    let slow = [10, 10, 0, 10, 10, 10].map(Slowness::equal).to_vec();
    Board { width: 3, height: 2, storeys: 1, slow, starts: vec![at_0(0)] }
}

const TEN: Slowness = Slowness::equal(10);

/// Two storeys, each the board of [`board`].
fn house() -> Board {
    Board { storeys: 2, slow: board().slow.repeat(2), ..board() }
}

/// That house with the first and the last cell's slowness changed.
fn house_with(first: Slowness, last: Slowness) -> Board {
    let mut house = house();
    (house.slow[0], house.slow[11]) = (first, last);
    house
}

fn at_0(cell: u32) -> Start {
    Start { cell, time: 0 }
}

const TILES: Tiles = Tiles { across: 2, down: 1 };

/// What march, run, round and writer say of a board.
fn refusals(board: &Board) -> [Option<Refusal>; 4] {
    let (mut times, mut sides) = (vec![NEVER; board.slow.len()], vec![Sides::NONE; board.slow.len()]);
    let scenario = Scenario { ticks: 10, ground: TEN, board: board.clone() };
    [
        march(board, 100).err(),
        tile_run(board, TILES, 10, 100).err(),
        one_round(board, TILES, 100, &mut times, &mut sides).err(),
        write_scenario(&scenario).err(),
    ]
}

type Change = dyn Fn(&mut Board);

#[test]
fn boards_are_judged_by_the_library() {
    assert_eq!(refusals(&board()), [None; 4]);
    assert_eq!(refusals(&house()), [None; 4]);
    let cases: [(&Change, Refusal); 28] = [
        (&|b| b.width = 0, Refusal::SidesOfBoard),
        (&|b| b.height = u32::MAX, Refusal::SidesOfBoard),
        (&|b| b.slow.clear(), Refusal::ListLength),
        (&|b| b.slow.push(TEN), Refusal::ListLength),
        (&|b| b.slow[5] = Slowness::equal(4_096), Refusal::Slowness),
        (&|b| b.slow[5] = Slowness::new(4_096, 10), Refusal::Slowness),
        (&|b| b.slow[5] = Slowness::new(10, 4_096), Refusal::Slowness),
        (&|b| b.slow[5] = Slowness::new(10, 0), Refusal::HalfWall),
        (&|b| b.slow[5] = Slowness::new(0, 4_095), Refusal::HalfWall),
        (&|b| b.slow[5] = 10.into(), Refusal::HalfWall),
        (&|b| (b.slow[0], b.slow[5]) = (10.into(), Slowness::new(1, u16::MAX)), Refusal::Slowness),
        (&|b| b.starts[0].cell = 6, Refusal::StartCell { place: Some(0) }),
        (&|b| b.starts.extend([0, 6, 7].map(at_0)), Refusal::StartCell { place: Some(2) }),
        (&|b| b.starts.push(at_0(0)), Refusal::StartOrder { place: Some(1) }),
        (&|b| b.starts.extend([1, 5, 4, 4].map(at_0)), Refusal::StartOrder { place: Some(3) }),
        (&|b| b.starts[0].time = 1_000_001, Refusal::StartTime),
        (&|b| b.starts[0].cell = 2, Refusal::StartOnWall),
        (&|b| *b = Board { width: 0, height: 0, storeys: 0, slow: vec![], starts: vec![] }, Refusal::SidesOfBoard),
        (&|b| b.storeys = 2, Refusal::ListLength),
        (&|b| b.storeys = 0, Refusal::ListLength),
        (&|b| (b.storeys, b.slow) = (0, vec![]), Refusal::Storeys),
        (&|b| (b.storeys, b.slow) = (9, vec![TEN; 54]), Refusal::Storeys),
        (&|b| (b.storeys, b.slow) = (9, vec![TEN; 53]), Refusal::ListLength),
        (&|b| b.storeys = u32::MAX, Refusal::ListLength),
        (&|b| *b = Board { slow: vec![TEN; 131_072], width: 256, height: 256, ..house() }, Refusal::Storeys),
        (&|b| *b = Board { starts: vec![at_0(12)], ..house() }, Refusal::StartCell { place: Some(0) }),
        (&|b| *b = house_with(TEN, Slowness::new(10, 11)), Refusal::Storeys),
        (&|b| *b = house_with(Slowness::new(10, 11), 10.into()), Refusal::HalfWall),
    ];
    for (change, refusal) in cases {
        let mut changed = board();
        change(&mut changed);
        assert_eq!(refusals(&changed), [Some(refusal); 4], "{:?}", changed);
    }
}

#[test]
fn numbers_and_tiles_are_judged_by_the_library() {
    let board = board();
    assert_eq!(march(&board, 300_000_001), Err(Refusal::Range));
    assert_eq!(tile_run(&board, TILES, 0, 1), Err(Refusal::Range));
    for (across, down) in [(0, 1), (1, 0), (257, 1), (1, u32::MAX)] {
        let tiles = Tiles { across, down };
        assert_eq!(tile_run(&board, tiles, 1, 1), Err(Refusal::SidesOfTile));
        assert_eq!(one_round(&board, tiles, 1, &mut [NEVER; 6], &mut [Sides::NONE; 6]), Err(Refusal::SidesOfTile));
    }
    for (times, sides, refusal) in [
        (0, 6, Refusal::TimesLength),
        (7, 6, Refusal::TimesLength),
        (7, 7, Refusal::TimesLength),
        (6, 0, Refusal::Room),
        (6, 5, Refusal::Room),
        (6, 7, Refusal::Room),
    ] {
        let (mut times, mut sides) = (vec![NEVER; times], vec![Sides::NONE; sides]);
        assert_eq!(one_round(&board, TILES, 1, &mut times, &mut sides), Err(refusal), "{:?} {:?}", times, sides);
    }
}

#[test]
fn files_are_judged_by_the_library() {
    let file = write_scenario(&Scenario { ticks: 10, ground: TEN, board: board() }).expect("a good board");
    for length in 0..file.len() {
        assert_eq!(read_scenario(&file[..length]), Err(Refusal::FileLength));
        assert_eq!(tablet_run(&file[..length], 1, TILES), Err(Refusal::FileLength));
    }
    // ticks, storeys, the one run's slowness along the row, then that down the column
    let changes =
        [(6, 0, Refusal::Ticks), (4, 9, Refusal::Storeys), (28, 10, Refusal::HalfWall), (30, 10, Refusal::Run)];
    let mut damaged = file.clone();
    for (place, byte, refusal) in changes {
        damaged[4..8].copy_from_slice(&file[4..8]);
        damaged[place] = byte;
        assert_eq!(read_scenario(&damaged), Err(refusal));
        assert_eq!(tablet_run(&damaged, 1, TILES), Err(refusal));
    }
    assert_eq!(tablet_run(&file, 0, TILES), Err(Refusal::Range));
    assert_eq!(tablet_run(&file, 1, Tiles { across: 0, down: 1 }), Err(Refusal::SidesOfTile));
    for (width, height, storeys, small) in [(33, 1, 1, false), (32, 32, 2, false), (32, 4, 8, true), (32, 32, 1, true)]
    {
        let slow = vec![TEN; (width * height * storeys) as usize];
        let board = Board { width, height, storeys, slow, starts: vec![] };
        let file = write_scenario(&Scenario { ticks: 10, ground: TEN, board }).expect("a good board");
        assert!(read_scenario(&file).is_ok());
        let tablet = tablet_run(&file, 1, TILES);
        if small {
            assert_eq!(tablet.expect("a small board").times.len(), 1_024);
        } else {
            assert_eq!(tablet, Err(Refusal::SmallBoard));
        }
    }
}

/// A file's ground is judged too, also where no cell has it.
#[test]
fn a_house_has_slownesses_that_are_equal_both_ways() {
    let furrow = Slowness::new(10, 20);
    let scenario = |ground, board| Scenario { ticks: 10, ground, board };
    assert!(write_scenario(&scenario(furrow, board())).is_ok());
    assert_eq!(write_scenario(&scenario(furrow, house())), Err(Refusal::Storeys));
    let mut file = write_scenario(&scenario(TEN, house())).expect("a good house");
    assert_eq!(read_scenario(&file), Ok(scenario(TEN, house())));
    file[10] = 20;
    assert_eq!(read_scenario(&file), Err(Refusal::Storeys));
    for (over, under) in [(0, NEVER), (NEVER, 0), (300_000_000, 300_000_001)] {
        assert_eq!(local_rule(furrow, 0, 0, 0, 0, over, under), Err(Refusal::Storeys));
    }
    let flat = local_rule(furrow, 0, 0, 0, 0, 300_000_001, NEVER).expect("never over and under");
    assert_eq!((flat.time, flat.sides), (9, Sides::from(1 + 4)));
}

/// The tablet and the tile run name the times of the march, tiles spanning both storeys, and the run its sides.
#[test]
fn a_house_is_played_as_it_is_marched() {
    let scenario = Scenario { ticks: 10, ground: TEN, board: house() };
    let March { times, sides, .. } = march(&scenario.board, 1_000).expect("a good house");
    assert_eq!(times, [0, 10, NEVER, 10, 18, 28, 10, 18, NEVER, 18, 24, 33]);
    let (left, above, under) = (1, 4, 32);
    let lower = [0, left, 0, above, left + above, left];
    let upper = [under, left + under, 0, above + under, left + above + under, left + under];
    assert_eq!(sides.iter().copied().map(u8::from).collect::<Vec<_>>(), [lower, upper].concat());
    let run = tile_run(&scenario.board, TILES, 7, 1_000).expect("a good house");
    assert_eq!((&run.times, run.sides), (&times, sides));
    let file = write_scenario(&scenario).expect("a good house");
    assert_eq!(tablet_run(&file, 100, TILES).expect("a small house").times, times);
}

/// The largest board, each cell a run and a start of its own, through its file and back.
#[test]
fn the_largest_scenario_goes_through_its_file() {
    let starts = (0..65_536).map(|cell| Start { cell, time: 1_000_000 - cell }).collect();
    let slow = (0..65_536).map(|c| Slowness::new(4_095, 4_094 + c as u16 % 2)).collect();
    let board = Board { width: 256, height: 256, storeys: 1, slow, starts };
    let scenario = Scenario { ticks: 65_535, ground: Slowness::WALL, board };
    let file = write_scenario(&scenario).expect("a good board");
    assert_eq!(file.len(), 20 + 20 * 65_536);
    assert_eq!(read_scenario(&file), Ok(scenario));
}

/// A file of the board of [`board`] with these starts behind it.
fn file_with(starts: &[Start]) -> Vec<u8> {
    let held = Scenario { ticks: 10, ground: TEN, board: Board { starts: vec![], ..board() } };
    let mut file = write_scenario(&held).expect("a good board");
    file[16..20].copy_from_slice(&(starts.len() as u32).to_le_bytes());
    file.extend(starts.iter().flat_map(|start| [start.cell, start.time]).flat_map(u32::to_le_bytes));
    file
}

/// More starts than there is room made for: the cause is their cells, not the room.
#[test]
fn more_starts_than_cells_are_refused_for_their_cells() {
    let refusal = Refusal::StartCell { place: Some(6) };
    for count in [7, 65_536, 65_537, 200_000] {
        let starts: Vec<Start> = (0..count).map(at_0).collect();
        assert_eq!(read_scenario(&file_with(&starts)), Err(refusal), "{} starts", count);
        let scenario = Scenario { ticks: 10, ground: TEN, board: Board { starts, ..board() } };
        assert_eq!(write_scenario(&scenario), Err(refusal), "{} starts", count);
    }
}

/// The reader says which start is at fault, the tablet's call the number alone.
#[test]
fn a_files_start_is_named_by_the_reader_and_not_by_the_tablet() {
    for (cells, number, place) in [([0, 1, 6, 6], 7, 2), ([0, 4, 3, 3], 18, 2), ([4, 4, 4, 7], 7, 3)] {
        let file = file_with(&cells.map(at_0));
        assert_eq!(read_scenario(&file).err(), Refusal::of(number, Some(place)), "{:?}", cells);
        let refusal = tablet_run(&file, 1, TILES).expect_err("a start at fault");
        assert_eq!((refusal.number(), refusal.place()), (number, None), "{:?}", cells);
        assert_eq!(refusal.to_string(), format!("refused by {}: {}", number, refusal.words()));
    }
}

/// The refusals in the order of the table, as they are without a place.
const TABLE: [Refusal; 18] = [
    Refusal::FileLength,
    Refusal::SidesOfBoard,
    Refusal::Ticks,
    Refusal::ListLength,
    Refusal::Slowness,
    Refusal::Run,
    Refusal::StartCell { place: None },
    Refusal::StartTime,
    Refusal::StartOnWall,
    Refusal::Range,
    Refusal::SidesOfTile,
    Refusal::Order,
    Refusal::TimesLength,
    Refusal::Room,
    Refusal::SmallBoard,
    Refusal::StartOrder { place: None },
    Refusal::HalfWall,
    Refusal::Storeys,
];

#[test]
fn every_number_has_its_words() {
    let unknown = Refusal::of(u32::MAX, None).expect("a refusal").words();
    for (number, refusal) in (1..=15).chain([18, 21, 23]).zip(TABLE) {
        let words = refusal.words();
        assert_eq!((refusal.number(), Refusal::of(number, None)), (number, Some(refusal)), "{}", words);
        assert_eq!(refusal.to_string(), format!("refused by {}: {}", number, words));
        assert!(words.len() > 10 && words != unknown, "{}", words);
        assert!(TABLE.iter().all(|other| *other == refusal || other.words() != words), "{} is said twice", words);
    }
    assert_eq!(Refusal::of(0, None), None);
}

#[test]
fn of_a_start_at_fault_the_place_is_said_too() {
    for (number, refusal) in (1..=15).chain([18, 21, 23]).zip(TABLE) {
        let placed = Refusal::of(number, Some(65_536)).expect("a refusal");
        assert_eq!((placed.number(), placed.words()), (number, refusal.words()));
        if [7, 18].contains(&number) {
            assert_eq!((placed.place(), refusal.place()), (Some(65_536), None));
            assert_eq!(placed.to_string(), format!("{}: start 65536, counted from 0", refusal));
        } else {
            assert_eq!((placed, placed.place()), (refusal, None));
        }
    }
}

/// Numbers that the table does not have yet.
#[test]
fn a_number_to_come_is_a_refusal_too() {
    let cause = "a cause that this version of the wrapper does not know";
    for number in [16, 17, 19, 20, 22, 24, 255, u32::MAX] {
        let refusal = Refusal::of(number, Some(3)).expect("a refusal");
        assert_eq!(refusal.number(), number);
        assert_eq!(refusal.to_string(), format!("refused by {}: {}", number, cause));
    }
}
