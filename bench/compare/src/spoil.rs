//! Texts, records, states and buffers damaged at random, mostly near the edges of what is allowed.

mod texts;

pub use texts::{header, long_text, text};

use crate::side::Side;
use crate::source::ENTRIES;
use random::Random;

fn pick(r: &mut Random, n: usize) -> usize {
    r.below(n as u64) as usize
}

/// A table's interval at its edges, and beyond them.
const INTERVALS: [u64; 9] = [4, 7, 9, 12, 524_232, 524_241, 524_248, 524_288, 4_294_967_288];

/// Numbers at the edges of fields, ranges and commands.
pub fn number(r: &mut Random) -> u16 {
    const EDGES: [u16; 36] = [
        0, 1, 2, 3, 4, 5, 9, 10, 14, 15, 18, 19, 28, 29, 78, 79, 98, 99, 100, 110, 196, 197, 255, 256, 257, 1_439,
        1_440, 1_441, 2_000, 2_001, 9_999, 10_000, 32_768, 65_534, 65_535, 12,
    ];
    match r.below(4) {
        0 => r.bits() as u16,
        1 => (256 * r.below(10) + r.one_of(&[0, 1, 2, 8, 9, 10, 99])) as u16,
        _ => r.one_of(&EDGES),
    }
}

/// Any bits, with what is not finite, zeros, the smallest and the largest more often than by chance.
pub fn float(r: &mut Random) -> f32 {
    let sign = u32::from(r.once_in(2)) << 31;
    let bits = match r.below(8) {
        0 => 0,
        1 => 0x7f80_0000,
        2 => 0x7f80_0000 | r.within(1, 0x7f_ffff) as u32,
        3 => r.within(1, 0x7f_ffff) as u32,
        4 => 0x7f7f_ffff,
        5 => {
            let near = (r.below(7_100) as f64 + 0.5) / r.one_of(&[1.0, 10.0, 100.0, 1_000.0]);
            (near as f32).to_bits() + r.below(3) as u32 - 1
        }
        _ => r.bits() as u32 & 0x7fff_ffff,
    };
    f32::from_bits(sign | bits)
}

const INSTRUCTIONS: [u16; 26] =
    [1, 2, 30, 31, 32, 33, 34, 35, 36, 37, 38, 70, 71, 72, 73, 74, 77, 85, 86, 87, 88, 89, 91, 92, 94, 95];

/// Numbers that no instruction has.
const UNKNOWN: [u16; 20] =
    [0, 3, 29, 39, 40, 69, 75, 76, 78, 84, 90, 93, 96, 255, 256, 257, 256 + 32, 256 + 95, 32_768 + 1, 65_535];

const SLOTS_TO_PUT: [&[u16]; 24] = [
    &[95],
    &[94],
    &[85, 1],
    &[86, 5 * 256],
    &[86, 6 * 256],
    &[86, 256 + 1],
    &[86, 256 + 99],
    &[86, 2 * 256 + 10],
    &[86, 7 * 256 + 9],
    &[86, 9 * 256],
    &[91, 1, 1, 4 * 256],
    &[91, 10, 1, 0],
    &[87, 0, 9_999],
    &[87, 0, 2],
    &[71, 99, 1],
    &[70, 1, 2_000],
    &[1, 2, 1, 195, 1],
    &[1, 2, 1, 196, 1],
    &[2, 2, 1, 97, 1],
    &[2, 2, 1, 98, 1],
    &[40, 1],
    &[77, 11],
    &[89, 1, 0, 5, 0],
    &[91, 1, 1, 9 * 256],
];

/// One damage to the record in the buffers.
fn record_once(r: &mut Random, s: &mut Side) {
    let table = r.below(3) as usize;
    let used = usize::from(s.numbers[6 + table]).clamp(1, ENTRIES);
    let slot = table * ENTRIES + pick(r, used);
    let at = 9 + 8 * slot;
    match r.below(15) {
        0 => s.numbers[r.below(2) as usize] = number(r),
        1 => {
            let v = r.one_of(&INTERVALS);
            let at = r.one_of(&[2, 4]);
            s.numbers[at..at + 2].copy_from_slice(&[(v % 65_536) as u16, (v / 65_536) as u16]);
        }
        2 => s.numbers[6 + table] = r.one_of(&[0, 1, 98, 99, 100, 255, 256, 65_535, used as u16 + 1, used as u16 - 1]),
        3 => s.values[2 * slot + r.below(2) as usize] = float(r),
        4 => s.numbers[at..at + 8].fill_with(|| number(r)),
        5 => {
            let other = 9 + 8 * (table * ENTRIES + pick(r, used));
            let copied: [u16; 8] = s.numbers[other..other + 8].try_into().unwrap();
            s.numbers[at..at + 8].copy_from_slice(&copied);
        }
        6..=8 => {
            s.numbers[at..at + 8].fill(0);
            let put = r.one_of(&SLOTS_TO_PUT);
            s.numbers[at..at + put.len()].copy_from_slice(put);
        }
        9 => s.numbers[at] = r.one_of(&INSTRUCTIONS),
        10 => s.numbers[at] = r.one_of(&UNKNOWN),
        _ => s.numbers[at + r.below(8) as usize] = number(r),
    }
}

pub fn record(r: &mut Random, s: &mut Side) {
    if (s.numbers.len(), s.values.len()) != (yukeira::RECORD_NUMBERS, yukeira::RECORD_VALUES) {
        return;
    }
    for _ in 0..r.one_of(&[1, 1, 1, 2, 6]) {
        record_once(r, s);
    }
}

/// A record that nothing ever keyed.
pub fn any_record(r: &mut Random, s: &mut Side) {
    s.numbers.fill_with(|| number(r));
    s.values.fill_with(|| float(r));
    if r.once_in(2) {
        return;
    }
    s.numbers[0] = r.within(1, 2_000) as u16;
    s.numbers[1] = r.within(0, 2_000) as u16;
    s.numbers[2..6].copy_from_slice(&[8, 0, 8, 0]);
    for t in 0..3 {
        s.numbers[6 + t] = r.below(4) as u16;
    }
    for slot in 0..297 {
        s.numbers[9 + 8 * slot] = if r.once_in(20) { r.one_of(&UNKNOWN) } else { r.one_of(&INSTRUCTIONS) };
    }
}

/// Flags and ports other than 0 and 1.
pub fn flags(r: &mut Random, s: &mut Side) {
    for _ in 0..r.within(1, 4) {
        s.state[r.below(18) as usize] = number(r);
    }
}

pub fn state(r: &mut Random, s: &mut Side) {
    if s.state.len() != yukeira::STATE_NUMBERS {
        return;
    }
    let ring = s.ring.len() as u64;
    match r.below(8) {
        0 => s.state[18] = (ring + r.below(3) + 65_535) as u16,
        1 => s.state[19] = (ring + r.below(3) + 65_535) as u16,
        2 => s.state[20] = r.one_of(&[0, 102, 399, 400, 65_535]),
        3 => s.state[r.within(21, 24) as usize] = number(r),
        4 => s.state[r.below(18) as usize] = number(r),
        5 => s.state.fill_with(|| number(r)),
        6 => {
            let any = pick(r, s.counts.len().max(1));
            let at = r.one_of(&[0, any, s.counts.len().saturating_sub(1)]);
            if let Some(count) = s.counts.get_mut(at) {
                *count = r.one_of(&[0, 1, 16_777_214, 16_777_215, 16_777_216, u32::MAX]);
            }
        }
        _ => s.state[18..20].fill_with(|| r.below(ring + 1) as u16),
    }
}

/// Words at the edges of signs, places and digits.
const WORDS: [u16; 16] =
    [0, 699, 700, 6_999, 7_000, 8_191, 8_192, 24_576, 31_575, 31_576, 32_768, 57_344, 57_345, 64_343, 64_344, 64_511];

/// Words of a ring: values, start words, and words that no value has.
pub fn words(r: &mut Random, s: &mut Side) {
    let spoiled = r.one_of(&[5, 30, 1_000_000]);
    let starts = r.one_of(&[2, 6, 40]);
    s.ring.fill_with(|| {
        if r.once_in(spoiled) {
            if r.once_in(2) {
                r.bits() as u16
            } else {
                r.one_of(&WORDS)
            }
        } else if r.once_in(starts) {
            64_512 + r.one_of(&[0, 101, 102, 399, 1_023])
        } else {
            plain::value_word(r.within(0, 20_000) as f32 / 8.0 - 1_000.0)
        }
    });
}

fn other_length(r: &mut Random, n: usize) -> usize {
    r.one_of(&[n + 1, n.saturating_sub(1), 0, 2 * n])
}

/// A cursor that no call gave, or that one might have given.
pub fn cursor(r: &mut Random, s: &mut Side) {
    let [position, filled] = [s.state[18], s.state[19]];
    let near = |r: &mut Random, n: u16| n.wrapping_add(r.below(3) as u16).wrapping_sub(1);
    let from = if r.once_in(8) { r.bits() as u16 } else { r.below(u64::from(filled) + 3) as u16 };
    s.cursor.put(match r.below(8) {
        0 => [0; 3],
        1 => [0, number(r), number(r)],
        2 => [from, number(r), number(r)],
        3 => [from, near(r, position), near(r, filled)],
        _ => [from, position, filled],
    });
}

/// Any words where an array's values are put, seldom not as many as the ring has.
pub fn listed(r: &mut Random, s: &mut Side) {
    let ring = s.ring.len();
    let length = if r.once_in(30) { other_length(r, ring) } else { ring };
    s.listed.put((0..length).map(|_| r.bits() as u16));
}

/// A buffer of another length.
pub fn lengths(r: &mut Random, s: &mut Side) {
    let n = other_length;
    match r.below(11) {
        0 => s.locations.resize(n(r, s.locations.len())),
        1 => s.sums.resize(n(r, s.sums.len())),
        2 => s.counts.resize(n(r, s.counts.len())),
        3 => s.readings.resize(n(r, s.readings.len())),
        4 => {
            s.ring.resize(r.one_of(&[0, 1, 32_768, 32_769]));
            if r.once_in(2) {
                s.listed.resize(s.ring.len());
            }
        }
        5 => s.numbers.resize(n(r, s.numbers.len())),
        6 => s.values.resize(n(r, s.values.len())),
        7 => s.cursor.resize(n(r, s.cursor.len())),
        8 => s.listed.resize(n(r, s.listed.len())),
        _ => s.state.resize(n(r, s.state.len())),
    }
}
