//! The log query, and logs that agree.

use second::logs::{agree, entry, longer, Entry};
use second::refusal::Refusal;

#[test]
fn agreeing_is_being_a_beginning_of_the_other() {
    assert!(agree(&[], &[]));
    assert!(agree(&[], &[0, 1]));
    assert!(agree(&[0, 1, 1, 1], &[0, 1]));
    assert!(!agree(&[0, 1], &[0, 2]));
    assert!(!agree(&[0, 1, 0, 3], &[0, 1, 0, 2, 1, 1]));
    assert!(!agree(&[0], &[0, 1]));
    assert!(!agree(&[0, 1], &[0, 1, 2]));
    assert!(!agree(&[0], &[0]));
}

#[test]
fn zero_records_are_bytes_like_others() {
    assert!(agree(&[0, 1, 0, 0], &[0, 1]));
    assert!(!agree(&[0, 1, 0, 0], &[0, 1, 0, 2]));
}

#[test]
fn the_longer_log_itself_is_handed_back() {
    let (first, second) = ([0, 1, 0, 2], [0, 1, 0, 2]);
    let is_part_of = |part: &[u8], whole: &[u8]| part.as_ptr() == whole.as_ptr();
    assert!(is_part_of(longer(&first, &second), &first));
    assert!(is_part_of(longer(&first[..2], &second), &second));
    assert!(is_part_of(longer(&first, &second[..2]), &first));
    assert_eq!(longer(&first[..2], &second), second);
    let other = [1, 1];
    assert_eq!(longer(&first, &other), []);
    assert!(is_part_of(longer(&first, &other), &first));
    assert_eq!(longer(&first[..3], &second), []);
}

#[test]
fn the_query_answers_1_then_2_then_9() {
    let sizes = [2, 2, 2];
    let logs = [0, 1, 1, 1, 0, 0, 0, 0, 1, 2, 0, 0, 0, 0, 0, 0];
    assert_eq!(entry(sizes, &logs, 0, 0, 1), Ok(Entry::new(1, 1)));
    assert_eq!(entry(sizes, &logs, 1, 0, 0), Ok(Entry::new(1, 2)));
    for (rack, lane, place) in [(0, 0, 2), (0, 1, 0), (1, 0, 1), (2, 0, 0), (0, 2, 0)] {
        assert_eq!(
            entry(sizes, &logs, rack, lane, place),
            Err(Refusal::NotThere)
        );
    }
    assert_eq!(entry(sizes, &logs, u64::MAX, 0, 0), Err(Refusal::NotThere));
    assert_eq!(entry(sizes, &logs, 0, 0, u64::MAX), Err(Refusal::NotThere));
    assert_eq!(entry(sizes, &logs[2..], 9, 9, 9), Err(Refusal::Size));
    assert_eq!(entry([2, 5, 2], &logs, 9, 9, 9), Err(Refusal::Size));
}

#[test]
fn the_query_tells_an_unsound_log_table() {
    for record in [[2, 1], [0, 4], [1, 0]] {
        let logs = [record, [0, 0]].concat();
        assert_eq!(entry([2, 1, 1], &logs, 9, 9, 9), Err(Refusal::NotSound));
    }
    let after_a_gap = [0, 0, 0, 1];
    assert_eq!(
        entry([1, 1, 2], &after_a_gap, 0, 0, 0),
        Err(Refusal::NotSound)
    );
}
