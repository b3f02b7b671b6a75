//! The making of a unit, by the library and by the model: the same numbers give a unit, and the others the same reply.

use kt11b::Answer;

/// A unit's number of cells and counter, or the parts of a refusal.
type Made = Result<(usize, u16), (u8, u16, Option<u32>)>;

fn made_by_library(number: u64) -> Made {
    match kt11b::Unit::with_cells(number) {
        Ok(unit) => {
            let readings = unit.cells().zip(unit.counter());
            Ok(readings.expect("a fresh unit is read"))
        }
        Err(reply) => {
            assert_eq!(reply.answer(), Answer::OtherCount, "{number}");
            Err((reply.answer_number(), reply.data(), reply.physical()))
        }
    }
}

fn made_by_model(number: u64) -> Made {
    match kt11b_model::Unit::with_cells(number) {
        Ok(unit) => Ok((unit.cells(), u16::from(unit.counter()))),
        Err(reply) => Err((reply.answer, reply.data, reply.physical)),
    }
}

/// "8 and 24 give a fresh unit .. Every other number gives 30 and no unit. The number is of any size (64 bits at the doors): 0, 1, 7, 9,
/// 16, 23, 25, 30, 65,544 (8 more than 200000o) and 2^64-1 are all 30."
#[test]
fn eight_and_twenty_four_give_a_unit_and_other_numbers_30() {
    assert_eq!(made_by_library(8), Ok((8, 0o10)));
    assert_eq!(made_by_library(24), Ok((24, 0o10)));
    for number in [0, 1, 7, 9, 16, 23, 25, 30, 65_544, u64::MAX] {
        assert_eq!(made_by_library(number), Err((30, 0, None)), "{number}");
    }
}

#[test]
fn the_model_makes_the_same_of_each_number() {
    for number in 0..=70_000 {
        assert_eq!(made_by_library(number), made_by_model(number), "{number}");
    }
    // The same low bits below each higher one.
    for bit in 16..64 {
        for low in 0..=32 {
            let number = 1 << bit | low;
            assert_eq!(made_by_library(number), made_by_model(number), "{number}");
        }
    }
}

/// `Unit::fresh` "stays and has 8".
#[test]
fn a_fresh_unit_without_a_number_has_eight() {
    let eight = kt11b::Unit::with_cells(8).expect("a unit");
    assert!(kt11b::Unit::fresh() == eight);
    assert!(kt11b_model::Unit::fresh() == kt11b_model::Unit::with_cells(8).expect("a unit"));
}
