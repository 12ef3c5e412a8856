//! The scan and the two keyings.

use crate::check::{check_record, judge};
use crate::plan::{Plan, NO_LOOP};
use crate::program::*;
use crate::run::{Run, MOST_SAMPLES};
use crate::storage::{Writer, LONGEST_RING};

const READINGS: usize = 196;
const MOST_ID: u16 = 399;
const LAST_DAY: u32 = 366;
const DAY: u32 = 6_912_000;
const MINUTE: u32 = 4_800;

#[derive(Clone, Copy, Debug, PartialEq, Eq)]
pub struct State {
    pub flags: [bool; 10],
    pub ports: [bool; 8],
    /// The ring's next word to write, and its filled words.
    pub position: u16,
    pub filled: u16,
    /// The array id last raised.
    pub array: u16,
    /// Each table's last scan; day 0: none yet.
    pub days: [u16; 2],
    pub minutes: [u16; 2],
}

impl State {
    pub const fn fresh() -> State {
        State { flags: [false; 10], ports: [false; 8], position: 0, filled: 0, array: 0, days: [0; 2], minutes: [0; 2] }
    }
}

fn lengths_wrong(p: &Program, readings: &[f32], locations: &[f32], sums: &[f32], counts: &[u32], ring: &[u16]) -> bool {
    locations.len() != p.locations as usize
        || sums.len() != p.sums as usize
        || counts.len() != SLOTS
        || readings.len() != READINGS
        || ring.is_empty()
        || ring.len() > LONGEST_RING
}

fn state_wrong(state: &State, counts: &[u32], ring: &[u16]) -> bool {
    state.position as usize >= ring.len()
        || state.filled as usize > ring.len()
        || state.array > MOST_ID
        || counts.iter().fold(0, |all, n| all | n) > MOST_SAMPLES
}

/// Does a table with this interval run at this time?
#[inline]
pub(crate) fn is_due(interval: u32, time: u32) -> bool {
    interval != 0 && time.is_multiple_of(interval)
}

/// One run of table 0 or 1 (Table 1 or 2) at a tick, if it is due; answers the refusal or 0.
#[allow(clippy::too_many_arguments)]
pub fn scan(
    p: &Program,
    table: usize,
    day: u32,
    time: u32,
    state: &mut State,
    readings: &[f32],
    locations: &mut [f32],
    sums: &mut [f32],
    counts: &mut [u32],
    ring: &mut [u16],
) -> u8 {
    let mut plan = Plan::new();
    if !judge(p, &mut plan).passed() {
        return 30;
    }
    if lengths_wrong(p, readings, locations, sums, counts, ring) {
        return 31;
    }
    if state_wrong(state, counts, ring) {
        return 32;
    }
    if table > 1 || !(1..=LAST_DAY).contains(&day) || time >= DAY {
        return 33;
    }
    if !is_due(p.intervals[table], time) {
        return 0;
    }

    let minute = time / MINUTE;
    let this = (day as u16, minute as u16);
    let new_minute = state.days[table] == 0 || (state.days[table], state.minutes[table]) != this;
    state.flags[0] = false;
    state.flags[9] = false;
    (state.days[table], state.minutes[table]) = this;
    let writer = Writer {
        ring,
        position: state.position as usize,
        filled: state.filled as usize,
        array: state.array,
        waiting: false,
    };
    let mut run = Run {
        code: p.entries.as_flattened(),
        plan: &plan,
        state,
        readings,
        locations,
        sums,
        counts,
        writer,
        day,
        minute,
        new_minute,
        passes: [0; NO_LOOP as usize + 1],
    };
    let first = table * ENTRIES;
    run.run(first, first + p.lengths[table] as usize);
    let Writer { position, filled, array, .. } = run.writer;
    state.position = position as u16;
    state.filled = filled as u16;
    state.array = array;
    0
}

/// Sets location n; answers the refusal or 0.
pub fn key_location(p: &Program, n: u32, v: f32, locations: &mut [f32]) -> u8 {
    if !check_record(p).passed() {
        return 30;
    }
    if locations.len() != p.locations as usize {
        return 31;
    }
    if n == 0 || n > p.locations as u32 || !v.is_finite() {
        return 34;
    }
    locations[n as usize - 1] = v;
    0
}

/// Turns flag f over; answers the refusal or 0.
pub fn key_flag(p: &Program, f: u8, state: &mut State) -> u8 {
    if !check_record(p).passed() {
        return 30;
    }
    if !(1..=8).contains(&f) {
        return 34;
    }
    state.flags[f as usize] = !state.flags[f as usize];
    0
}
