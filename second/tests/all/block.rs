//! What a block gives for the cells that were read, ties included.

use second::block::{news, result, second_cell, Gathered};
use second::cell::{Cell, Value, ADOPTED, COMMITTED, WRITTEN};

use crate::driver::value;

/// Cells of the first racks with these marks and values; the other cells are empty.
fn gathered(cells: &[(u8, Value)]) -> Gathered {
    let mut gathered = [Cell::EMPTY; 8];
    for (cell, (mark, value)) in gathered.iter_mut().zip(cells) {
        *cell = Cell::new(*mark, *value);
    }
    gathered
}

fn first(values: &[Value]) -> Gathered {
    gathered(
        &values
            .iter()
            .map(|value| (WRITTEN, *value))
            .collect::<Vec<_>>(),
    )
}

const NONE: (u8, Value) = (0, Value::NONE);

fn low(issuer: u8) -> Value {
    value(1, (issuer, 1), (0, 1))
}

fn high(issuer: u8) -> Value {
    value(2, (issuer, 1), (0, 1))
}

#[test]
fn the_second_cell_commits_only_if_all_are_equal() {
    let all_equal = gathered(&[NONE, (WRITTEN, low(1)), NONE, (WRITTEN, low(1))]);
    assert_eq!(second_cell(1, &all_equal), Cell::new(COMMITTED, low(1)));
    // All five fields must match: here only the previous pair differs.
    let other = value(1, (1, 1), (0, 2));
    let differing = first(&[low(1), other]);
    assert_eq!(second_cell(0, &differing), Cell::new(ADOPTED, low(1)));
    assert_eq!(second_cell(1, &differing), Cell::new(ADOPTED, other));
}

#[test]
fn the_second_cell_adopts_the_greatest_place() {
    let cells = first(&[low(0), high(1), high(2), low(3)]);
    // Its own if it ties, else the lowest rack's.
    assert_eq!(second_cell(0, &cells), Cell::new(ADOPTED, high(1)));
    assert_eq!(second_cell(1, &cells), Cell::new(ADOPTED, high(1)));
    assert_eq!(second_cell(2, &cells), Cell::new(ADOPTED, high(2)));
    assert_eq!(second_cell(3, &cells), Cell::new(ADOPTED, high(1)));
}

#[test]
fn the_result_is_committed_only_if_all_are_committed_and_equal() {
    let own = first(&[low(0), low(1)]);
    let committed = (COMMITTED, low(0));
    let both = gathered(&[committed, committed]);
    assert_eq!(result(0, &own, &both), Cell::new(COMMITTED, low(0)));
    let one = gathered(&[committed, NONE]);
    assert_eq!(result(0, &own, &one), Cell::new(COMMITTED, low(0)));
    // Equal but only adopted, and committed but not its own.
    let adopted = gathered(&[committed, (ADOPTED, low(0))]);
    assert_eq!(result(0, &own, &adopted), Cell::new(ADOPTED, low(0)));
    assert_eq!(result(1, &own, &both), Cell::new(ADOPTED, low(0)));
}

#[test]
fn the_result_adopts_the_first_committed_else_its_own_second_cell() {
    let own = first(&[low(0), low(1), low(2), low(3)]);
    let second = gathered(&[
        (ADOPTED, high(0)),
        (COMMITTED, low(1)),
        (COMMITTED, high(2)),
        (COMMITTED, low(3)),
    ]);
    for rack in 0..4 {
        assert_eq!(result(rack, &own, &second), Cell::new(ADOPTED, low(1)));
    }
    let second = gathered(&[(ADOPTED, high(2)), (ADOPTED, low(1)), NONE, NONE]);
    assert_eq!(result(0, &own, &second), Cell::new(ADOPTED, high(2)));
    assert_eq!(result(1, &own, &second), Cell::new(ADOPTED, low(1)));
}

#[test]
fn the_news_is_the_earliest_of_greatest_place() {
    let second = gathered(&[NONE, (COMMITTED, high(3)), (ADOPTED, high(4))]);
    assert_eq!(news(&first(&[low(0), high(1), high(2)]), &second), high(1));
    assert_eq!(news(&first(&[low(0), low(1), low(2)]), &second), high(3));
    assert_eq!(news(&first(&[low(2), low(1)]), &[Cell::EMPTY; 8]), low(2));
}
