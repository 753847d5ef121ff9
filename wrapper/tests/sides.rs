//! Every byte of sides by name.

use murgolab::*;

/// The first of two by one of an axis' numbers, the second by the other, neither where a byte has none of them or both.
fn one_of<T>(byte: u8, first: (u8, T), second: (u8, T)) -> Option<T> {
    match (byte & first.0 > 0, byte & second.0 > 0) {
        (true, false) => Some(first.1),
        (false, true) => Some(second.1),
        _ => None,
    }
}

/// The header's numbers: left 1, right 2, above 4, below 8, over 16, under 32.
#[test]
fn every_byte_has_the_names_of_its_numbers() {
    for byte in 0..=255 {
        let sides = Sides::from(byte);
        assert_eq!(u8::from(sides), byte);
        assert_eq!(sides.row(), one_of(byte, (1, Row::Left), (2, Row::Right)), "{}", byte);
        assert_eq!(sides.column(), one_of(byte, (4, Column::Above), (8, Column::Below)), "{}", byte);
        assert_eq!(sides.storey(), one_of(byte, (16, Storey::Over), (32, Storey::Under)), "{}", byte);
        assert_eq!(sides == Sides::NONE, byte == 0);
    }
}

#[test]
fn sides_are_said_in_words() {
    for (byte, words) in [
        (0, "none"),
        (1, "left"),
        (2, "right"),
        (4, "above"),
        (8, "below"),
        (16, "over"),
        (32, "under"),
        (2 + 4, "right and above"),
        (1 + 8 + 32, "left and below and under"),
        (1 + 2, "none"),
    ] {
        assert_eq!(Sides::from(byte).to_string(), words);
    }
    assert_eq!(format!("{:?}", Sides::from(5)), "Sides(left and above)");
    assert_eq!(Sides::default(), Sides::NONE);
}

/// Round 3 alters no time, and turns the third cell's side from the right to the left: whoever makes rounds by hand
/// sees the march's sides after the one that counts 0.
#[test]
fn a_round_may_turn_a_side_and_alter_no_time() {
    let starts = vec![Start { cell: 0, time: 0 }, Start { cell: 3, time: 1 }];
    let board = Board { width: 4, height: 1, storeys: 1, slow: vec![Slowness::equal(1); 4], starts };
    let (mut times, mut sides) = ([NEVER; 4], [Sides::NONE; 4]);
    for (altered, third) in [(2, None), (2, Some(Row::Right)), (0, Some(Row::Left)), (0, Some(Row::Left))] {
        let tiles = Tiles { across: 1, down: 1 };
        assert_eq!(one_round(&board, tiles, 10, &mut times, &mut sides), Ok(altered));
        assert_eq!(sides[2].row(), third);
    }
    let front = march(&board, 10).expect("a good board");
    assert_eq!((times.to_vec(), sides.to_vec()), (front.times, front.sides));
}
