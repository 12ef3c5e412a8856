//! The calls on lent buffers: refusals in their order, and what is written.

use plain::calls::*;
use plain::{RECORD_NUMBERS, RECORD_VALUES, STATE_NUMBERS};

const TEXT: &[u8] = b"(program 2 1\n(table 1 80\n(86 10)\n(71 1 1)\n)\n(table 2 0\n)\n(table 3\n)\n)\n";

/// All that a scan is lent.
struct Lent {
    numbers: Vec<u16>,
    values: Vec<f32>,
    state: Vec<u16>,
    readings: Vec<f32>,
    locations: Vec<f32>,
    sums: Vec<f32>,
    counts: Vec<u32>,
    ring: Vec<u16>,
}

impl Lent {
    fn new() -> Lent {
        let mut lent = Lent {
            numbers: vec![1; RECORD_NUMBERS],
            values: vec![1.0; RECORD_VALUES],
            state: vec![0; STATE_NUMBERS],
            readings: vec![0.0; 196],
            locations: vec![2.5; 2],
            sums: vec![0.0; 1],
            counts: vec![0; 297],
            ring: vec![0; 8],
        };
        let (mut table, mut entry, mut first, mut second) = (9, 9, 9, 9);
        let (n, v) = (&mut lent.numbers, &mut lent.values);
        assert_eq!(check_text(TEXT, n, v, &mut table, &mut entry, &mut first, &mut second), 0);
        assert_eq!((table, entry, first, second), (0, 0, 2, 0));
        lent
    }

    fn scan(&mut self, table: u8, day: u32, time: u32) -> u8 {
        scan(
            &self.numbers,
            &self.values,
            table,
            day,
            time,
            &mut self.state,
            &self.readings,
            &mut self.locations,
            &mut self.sums,
            &mut self.counts,
            &mut self.ring,
        )
    }

    /// The five numbers of the check.
    fn check(&self) -> (u8, u8, u8, u32, u32) {
        let (mut table, mut entry, mut first, mut second) = (9, 9, 9, 9);
        let answer = check_record(&self.numbers, &self.values, &mut table, &mut entry, &mut first, &mut second);
        (answer, table, entry, first, second)
    }
}

#[test]
fn refusals_in_order() {
    let mut lent = Lent::new();
    assert_eq!([lent.scan(0, 1, 0), lent.scan(3, 1, 0), lent.scan(1, 0, 0)], [33; 3]);
    lent.state[18] = 8;
    assert_eq!(lent.scan(0, 0, 0), 32);
    lent.ring.clear();
    assert_eq!(lent.scan(0, 0, 0), 31);
    lent.numbers[9] = 95;
    assert_eq!(lent.scan(0, 0, 0), 30);
    lent.state.pop();
    assert_eq!(lent.scan(0, 0, 0), 31);
    assert_eq!(key_flag(&lent.numbers, &lent.values, 9, &mut lent.state), 31);
    lent.values.pop();
    assert_eq!(lent.check(), (31, 9, 9, 9, 9));
}

#[test]
fn a_scan_that_is_not_due_writes_nothing() {
    let mut lent = Lent::new();
    lent.state[..18].fill(7);
    let before = lent.state.clone();
    assert_eq!((lent.scan(1, 1, 79), lent.scan(2, 1, 80)), (0, 0));
    assert_eq!(lent.state, before);
    assert_eq!(lent.scan(1, 1, 80), 0);
    assert_eq!(lent.state[..10], [1, 1, 1, 1, 1, 1, 1, 1, 1, 0]);
    assert_eq!(lent.state[10..18], [1; 8]);
}

#[test]
fn slots_without_an_instruction() {
    let known = |n| matches!(n, 1 | 2 | 30..=38 | 70..=74 | 77 | 85..=89 | 91 | 92 | 94 | 95);
    let mut lent = Lent::new();
    for n in 0..=u16::MAX {
        lent.numbers[9 + 8] = n;
        let answer = lent.check();
        assert_eq!((answer.0 == 3, answer.0 == 3 && answer != (3, 1, 2, 0, 0)), (!known(n), false), "{n}");
    }
    lent.numbers[9 + 8..9 + 10].copy_from_slice(&[77, 11]);
    assert_eq!(lent.check(), (2, 1, 2, 0, 0));
    lent.numbers[9] = 40;
    assert_eq!(lent.check(), (3, 1, 1, 0, 0));
    lent.numbers[0] = 0;
    assert_eq!(lent.check(), (2, 0, 0, 0, 0));
}

/// A kept cursor is answered by 3 once a word is stored, and a listing from zeros has the arrays that there are.
#[test]
fn a_kept_cursor() {
    let mut lent = Lent::new();
    let (mut cursor, mut values, mut id, mut count) = ([0; 3], [9; 8], 9, 9);
    let mut step = |lent: &Lent, cursor: &mut [u16; 3]| {
        let answer = next(&lent.state, &lent.ring, cursor, &mut values, &mut id, &mut count);
        (answer, id, count, values)
    };
    assert_eq!(step(&lent, &mut cursor), (0, 9, 9, [9; 8]));
    assert_eq!(lent.scan(1, 1, 0), 0);
    assert_eq!(step(&lent, &mut cursor), (1, 101, 1, [27_076, 9, 9, 9, 9, 9, 9, 9]));
    assert_eq!((step(&lent, &mut cursor).0, cursor), (0, [2, 2, 2]));
    assert_eq!(lent.scan(1, 1, 80), 0);
    assert_eq!((step(&lent, &mut cursor).0, cursor), (3, [2, 2, 2]));
    cursor = [0; 3];
    assert_eq!((step(&lent, &mut cursor).0, cursor), (1, [2, 4, 4]));
    assert_eq!((step(&lent, &mut cursor).0, cursor), (1, [4, 4, 4]));
    assert_eq!((step(&lent, &mut cursor).0, cursor), (0, [4, 4, 4]));
}
