//! Texts damaged at random.

use super::{pick, INTERVALS};
use crate::source::{fixed, whole, Source, ENTRIES};
use random::Random;

const ITEMS: [&str; 44] = [
    "0", "00", "1", "1--", "2--", "--", "1-", "-1", "-0", "-0.0", "1.0", "1.", ".5", "1.5.2", "+1", "x", "3", "4", "5",
    "7", "8", "9", "29", "30", "31", "32", "40", "58", "78", "79", "99", "100", "197", "1440", "2000", "2001", "9999",
    "10000", "9999999", "00000001", "1:", "/1", "1.:", "-/",
];

const ENTRIES_TO_PUT: [&str; 34] = [
    "(85 1)",
    "(85 2)",
    "(85 99)",
    "(95)",
    "(95)",
    "(94)",
    "(86 31)",
    "(89 1 1 0 32)",
    "(86 1)",
    "(86 9)",
    "(86 80)",
    "(32 0)",
    "(32 2001)",
    "(32 2000)",
    "(40 1)",
    "(32)",
    "(32 1 1)",
    "(32 x)",
    "(87 0 9999)",
    "(87 1 1)",
    "(91 10 30)",
    "(91 30 10)",
    "(71 99 1)",
    "(74 1 1)",
    "(1 99 1 7 28 1 1 0)",
    "(2 2 1 7 14 1 1 0)",
    "(86 30)",
    "(70 100 1)",
    "()",
    "(32  1)",
    "(87 0 0)",
    "(87 0 10000)",
    "(92 1440 1 10)",
    "(92 0 1441 10)",
];

const BYTES: [u8; 14] = [b'\n', b' ', b'(', b')', b'0', b'9', b'-', b'.', b'/', b':', b'\t', b'\r', 0, 200];

fn items(r: &mut Random, line: &mut Vec<u8>) {
    let mut items: Vec<Vec<u8>> =
        line.split(|b| matches!(b, b' ' | b'(' | b')')).map(<[u8]>::to_vec).filter(|i| !i.is_empty()).collect();
    if items.is_empty() {
        return;
    }
    let n = pick(r, items.len());
    match r.below(8) {
        0 => drop(items.remove(n)),
        1 => items.insert(n, items[n].clone()),
        2 => items[n] = fixed(r).into_bytes(),
        3 => {
            let number = r.below(2_100);
            items[n] = whole(r, number).into_bytes();
        }
        _ => items[n] = r.one_of(&ITEMS).into(),
    }
    let opening = line.first() == Some(&b'(');
    let closing = line.last() == Some(&b')');
    *line = items.join(&b' ');
    if opening {
        line.insert(0, b'(');
    }
    if closing {
        line.push(b')');
    }
}

/// One damage to the lines; most leave the text's shape in order.
fn lines(r: &mut Random, lines: &mut Vec<Vec<u8>>) {
    let n = pick(r, lines.len());
    match r.below(16) {
        0 => drop(lines.remove(n)),
        1 => lines.insert(n, lines[n].clone()),
        2 => {
            let other = pick(r, lines.len());
            lines.swap(n, other);
        }
        3 => {
            // Many blocks in each other round an entry.
            let count = r.within(10, 13) as usize;
            let line = lines[n].clone();
            let opening = r.one_of(&["(91 11 30)", "(87 0 1)"]).as_bytes().to_vec();
            let blocks = vec![opening; count].into_iter().chain([line]).chain(vec![b"(95)".to_vec(); count]);
            lines.splice(n..=n, blocks);
        }
        4 => {
            let count = r.within(90, 100) as usize;
            lines.splice(n..n, vec![r.one_of(&["(32 1)", "(77 10)", "(86 1)"]).as_bytes().to_vec(); count]);
        }
        5 => subroutine(r, lines),
        6..=9 => lines.insert(n, r.one_of(&ENTRIES_TO_PUT).into()),
        _ => items(r, &mut lines[n]),
    }
    if lines.is_empty() {
        lines.push(Vec::new());
    }
}

/// A subroutine twice, or one that calls itself or another.
fn subroutine(r: &mut Random, lines: &mut Vec<Vec<u8>>) {
    let starts: Vec<usize> = (0..lines.len()).filter(|&n| lines[n].starts_with(b"(85 ")).collect();
    if starts.is_empty() {
        return;
    }
    let (at, other) = (r.one_of(&starts), r.one_of(&starts));
    if r.once_in(2) {
        lines.splice(at..at, [lines[other].clone(), b"(95)".to_vec()]);
    } else {
        let mut call = lines[other].clone();
        call[2] = b'6';
        lines.insert(at + 1, call);
    }
}

fn bytes(r: &mut Random, text: &mut Vec<u8>) {
    let n = pick(r, text.len() + 1);
    let byte = if r.once_in(3) { r.below(256) as u8 } else { r.one_of(&BYTES) };
    match r.below(7) {
        0 => text.truncate(n),
        1 => text.extend(vec![byte; r.within(1, 3) as usize]),
        2 | 3 => text.insert(n, byte),
        4 if n < text.len() => drop(text.remove(n)),
        _ if n < text.len() => text[n] = byte,
        _ => text.clear(),
    }
}

/// I, M or a V at its edge.
pub fn header(r: &mut Random, source: &mut Source) {
    match r.below(4) {
        0 => source.locations = r.one_of(&[0, source.locations - 1, 2_001]),
        1 | 2 => source.sums = r.one_of(&[source.sums.saturating_sub(1), source.sums / 2, 2_001]),
        _ => source.intervals[r.below(2) as usize] = r.one_of(&INTERVALS),
    }
}

/// A text of the grammar, damaged once or more unless `sound`.
pub fn text(r: &mut Random, source: &Source, sound: bool) -> Vec<u8> {
    let mut all = source.lines();
    let damages = if sound { 0 } else { r.one_of(&[1, 1, 1, 2, 5]) };
    let in_bytes = r.once_in(5);
    for _ in 0..damages {
        if !in_bytes {
            lines(r, &mut all);
        }
    }
    let mut text = joined(&all);
    for _ in 0..damages {
        if in_bytes {
            bytes(r, &mut text);
        }
    }
    if !sound && r.once_in(40) {
        let length = r.within(16_380, 16_390) as usize;
        text.resize(length, r.one_of(&BYTES));
    }
    text
}

/// A text about as long as is allowed: whole numbers with zeros in front.
pub fn long_text(r: &mut Random) -> Vec<u8> {
    let shortest = with_zeros(0).len();
    with_zeros(r.within(16_382, 16_386) as usize - shortest)
}

fn with_zeros(mut zeros: usize) -> Vec<u8> {
    let mut one = || {
        let some = zeros.min(6);
        zeros -= some;
        "0".repeat(some) + "1"
    };
    let mut entry = || format!("1 {} {} {} {} {}-- -1.2345 -1.2345", one(), one(), one(), one(), one());
    let mut tables: [Vec<String>; 3] = std::array::from_fn(|_| (0..ENTRIES).map(|_| entry()).collect());
    tables[2][0] = "85 7".into();
    tables[2][ENTRIES - 1] = "95".into();
    joined(&Source { locations: 1, sums: 0, intervals: [8, 8], tables }.lines())
}

fn joined(lines: &[Vec<u8>]) -> Vec<u8> {
    let mut text = lines.join(&b'\n');
    text.push(b'\n');
    text
}
