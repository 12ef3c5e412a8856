//! The calls of `include/yukeira.h` on the same lent buffers, with the same answers.

use crate::layout::*;
use crate::scan::{is_due, State};
use crate::storage::{Cursor, Listed, Next};
use crate::verdict::{fault, Verdict};

/// A record, state or cursor buffer of another size.
const WRONG_LENGTH: u8 = 31;

fn verdict(v: Verdict, table: &mut u8, entry: &mut u8, first: &mut u32, second: &mut u32) -> u8 {
    let answer;
    (answer, *table, *entry, *first, *second) = match v {
        Verdict::Pass(one, two) => (0, 0, 0, one, two),
        Verdict::Fault { number, table, entry } => (number, table, entry, 0, 0),
    };
    answer
}

/// The check of a record in buffers: a slot with no instruction's number is fault 3 where it is read.
fn judged(numbers: &Numbers, values: &Values) -> Verdict {
    let v = crate::check_record(&read_record(numbers, values));
    match v {
        Verdict::Fault { number: 2, table: table @ 1.., entry: entry @ 1.. } => {
            let (table, entry) = (table.into(), entry.into());
            if is_instruction(slot_number(numbers, table, entry)) {
                v
            } else {
                fault(3, table, entry)
            }
        }
        _ => v,
    }
}

fn sized<'a>(numbers: &'a [u16], values: &'a [f32]) -> Option<(&'a Numbers, &'a Values)> {
    Some((numbers.try_into().ok()?, values.try_into().ok()?))
}

/// What a listing reads of the state: the ring's position and filled count.
fn ring_state(state: &[u16]) -> Option<State> {
    let state: &StateNumbers = state.try_into().ok()?;
    Some(State { position: state[18], filled: state[19], ..State::fresh() })
}

pub fn check_text(
    text: &[u8],
    numbers: &mut [u16],
    values: &mut [f32],
    table: &mut u8,
    entry: &mut u8,
    first: &mut u32,
    second: &mut u32,
) -> u8 {
    let (Ok(numbers), Ok(values)) = (numbers.try_into(), values.try_into()) else {
        return WRONG_LENGTH;
    };
    let (v, p) = crate::check_text(text);
    write_record(&p, numbers, values);
    verdict(v, table, entry, first, second)
}

pub fn check_record(
    numbers: &[u16],
    values: &[f32],
    table: &mut u8,
    entry: &mut u8,
    first: &mut u32,
    second: &mut u32,
) -> u8 {
    let Some((numbers, values)) = sized(numbers, values) else {
        return WRONG_LENGTH;
    };
    verdict(judged(numbers, values), table, entry, first, second)
}

pub fn fresh(state: &mut [u16]) -> u8 {
    let Ok(state) = state.try_into() else {
        return WRONG_LENGTH;
    };
    write_state(&State::fresh(), state);
    0
}

#[allow(clippy::too_many_arguments)]
pub fn scan(
    numbers: &[u16],
    values: &[f32],
    table: u8,
    day: u32,
    time: u32,
    state: &mut [u16],
    readings: &[f32],
    locations: &mut [f32],
    sums: &mut [f32],
    counts: &mut [u32],
    ring: &mut [u16],
) -> u8 {
    let (Some((numbers, values)), Ok(state)) = (sized(numbers, values), <&mut StateNumbers>::try_from(state)) else {
        return WRONG_LENGTH;
    };
    let p = read_record(numbers, values);
    let mut s = read_state(state);
    let table = usize::from(table).wrapping_sub(1);
    let answer = crate::scan(&p, table, day, time, &mut s, readings, locations, sums, counts, ring);
    if answer == 0 && is_due(p.intervals[table], time) {
        write_state(&s, state);
    }
    answer
}

pub fn key_location(numbers: &[u16], values: &[f32], n: u32, v: f32, locations: &mut [f32]) -> u8 {
    match sized(numbers, values) {
        Some((numbers, values)) => crate::key_location(&read_record(numbers, values), n, v, locations),
        None => WRONG_LENGTH,
    }
}

pub fn key_flag(numbers: &[u16], values: &[f32], f: u8, state: &mut [u16]) -> u8 {
    let (Some((numbers, values)), Ok(state)) = (sized(numbers, values), <&mut StateNumbers>::try_from(state)) else {
        return WRONG_LENGTH;
    };
    let mut s = read_state(state);
    let answer = crate::key_flag(&read_record(numbers, values), f, &mut s);
    if answer == 0 {
        write_state(&s, state);
    }
    answer
}

fn listed(listed: Listed, number: &mut u16, places: &mut u8, negative: &mut u8) -> u8 {
    let answer;
    (answer, *number, *places, *negative) = match listed {
        Listed::Refused(refusal) => return refusal,
        Listed::None => return 0,
        Listed::Id(id) => (1, id, 0, 0),
        Listed::Value(v) => (2, v.digits, v.places, v.negative.into()),
    };
    answer
}

pub fn list(
    state: &[u16],
    ring: &[u16],
    k: usize,
    j: usize,
    number: &mut u16,
    places: &mut u8,
    negative: &mut u8,
) -> u8 {
    match ring_state(state) {
        Some(state) => listed(crate::list(&state, ring, k, j), number, places, negative),
        None => WRONG_LENGTH,
    }
}

pub fn next(
    state: &[u16],
    ring: &[u16],
    cursor: &mut [u16],
    values: &mut [u16],
    id: &mut u16,
    count: &mut usize,
) -> u8 {
    let (Some(state), Ok(lent)) = (ring_state(state), <&mut CursorNumbers>::try_from(cursor)) else {
        return WRONG_LENGTH;
    };
    let [from, position, filled] = *lent;
    let mut cursor = Cursor { from, position, filled };
    match crate::next(&state, ring, &mut cursor, values) {
        Next::Refused(refusal) => refusal,
        Next::None => 0,
        Next::MovedOn => 3,
        Next::Array { id: of, count: held } => {
            (*id, *count) = (of, held);
            *lent = [cursor.from, cursor.position, cursor.filled];
            1
        }
    }
}
