//! Random calls on both sides, compared by bits.

mod listings;

use crate::side::{by_plain, by_proved, Call, Side, Told};
use crate::source::{near_the_limit, source};
use crate::spoil;
use crate::tally::Tally;
use random::Random;
use std::panic::{catch_unwind, AssertUnwindSafe};

/// The first difference, told in full.
struct Difference(String);

/// A list of calls over one set of buffers.
struct Scene<'a> {
    r: Random,
    tally: &'a mut Tally,
    /// The plain side's buffers are changed between calls, and copied to the other side before each.
    plain: &'a mut Side,
    proved: &'a mut Side,
    before: &'a mut Side,
    /// Words were stored since the cursor was given.
    stored: bool,
}

/// Eightieths of a second in a day.
const DAY: u32 = 6_912_000;

type Outcome<T> = Result<T, Difference>;

impl Scene<'_> {
    fn call(&mut self, call: Call) -> Outcome<u8> {
        self.before.take(self.plain);
        self.proved.take(self.plain);
        let proved = by_proved(self.proved, call);
        let plain = catch_unwind(AssertUnwindSafe(|| by_plain(self.plain, call))).ok();
        if plain != Some(proved) || !self.proved.same(self.plain) {
            let plain = plain.map_or("panics".into(), |n| format!("answers {n}"));
            return Err(self.difference(call, &format!("proved answers {proved}, plain {plain}")));
        }
        if self.leaves_all(call, proved) && !self.proved.same(self.before) {
            return Err(self.difference(call, &format!("answered {proved}, but what was lent has changed")));
        }
        self.tally.note(call.name(), proved);
        if matches!(call, Call::Scan { .. } | Call::List { .. } | Call::Next) && proved < 30 {
            self.tally.note_ring(self.before.ring.len());
        }
        if let (Call::Scan { table, time, .. }, 0) = (call, proved) {
            self.note_scan(table, time);
        }
        Ok(proved)
    }

    /// A call that is answered so changes nothing.
    fn leaves_all(&self, call: Call, answer: u8) -> bool {
        match call {
            _ if answer >= 30 => true,
            Call::Scan { table, time, .. } => !is_due(self.before, table, time),
            Call::List { .. } => answer == 0,
            Call::Next => answer != 1,
            _ => false,
        }
    }

    fn note_scan(&mut self, table: u8, time: u32) {
        let (before, after) = (&*self.before, &*self.proved);
        let words = after.ring.iter().zip(&*before.ring).filter(|(a, b)| a != b).count();
        self.stored |= words > 0 || before.state[18..20] != after.state[18..20];
        let odd = before.state[..18].iter().any(|&n| n > 1);
        self.tally.idle += u64::from(odd && !is_due(before, table, time));
        self.tally.ran += u64::from(!after.same(before));
        self.tally.words += words as u64;
        self.tally.note_entries(&before.numbers);
    }

    fn difference(&self, call: Call, what: &str) -> Difference {
        let differing = self.proved.show_difference(self.plain);
        Difference(format!("{call:?}: {what}\n{differing}inputs:\n{}", self.before.show()))
    }

    /// Buffers of the record's lengths, fresh or with numbers in them.
    fn lend(&mut self) {
        let (r, s) = (&mut self.r, &mut *self.plain);
        let (locations, sums) = (s.numbers[0] as usize, s.numbers[1] as usize);
        let ring = match r.below(12) {
            0 => 1,
            1 => 2,
            2 => 63,
            3 | 4 => 64,
            5 if r.once_in(6) => 32_768,
            6 | 7 => r.within(3, 9) as usize,
            _ => r.within(3, 200) as usize,
        };
        let wild = r.one_of(&[0, 0, 3, 12]);
        s.state.put([0; yukeira::STATE_NUMBERS]);
        s.counts.put([0; yukeira::COUNTS]);
        s.locations.put((0..locations).map(|_| value(r, wild)));
        s.sums.put((0..sums).map(|_| value(r, wild)));
        s.readings.put((0..yukeira::READINGS).map(|_| value(r, wild)));
        s.ring.put(vec![0; ring]);
        if s.cursor.len() != yukeira::CURSOR_NUMBERS {
            s.cursor.put([0; yukeira::CURSOR_NUMBERS]);
        }
        if wild > 0 {
            s.counts.fill_with(|| r.one_of(&[0, 1, 2, 16_777_214, 16_777_215]));
        }
        if r.once_in(8) {
            spoil::words(r, s);
            s.state[18] = r.below(ring as u64) as u16;
            s.state[19] = r.within(0, ring as u64) as u16;
        }
    }

    /// Scans, keyings and listings on a record, which has passed or not.
    fn run(&mut self, calls: u64) -> Outcome<()> {
        let (mut day, mut time) = (self.r.within(1, 366) as u32, 0);
        for _ in 0..calls {
            if self.r.once_in(25) {
                return self.refused();
            }
            match self.r.below(20) {
                0 => self.call(Call::CheckRecord)?,
                1 if self.r.once_in(5) => self.call(Call::Fresh)?,
                1..=3 => {
                    let n = self.r.within(0, u64::from(self.plain.numbers[0]) + 1) as u32;
                    let v = value(&mut self.r, 4);
                    self.call(Call::KeyLocation { n, bits: v.to_bits() })?
                }
                4 | 5 => {
                    let f = self.r.within(0, 10) as u8;
                    self.call(Call::KeyFlag { f })?
                }
                6 | 7 => self.list_some()?,
                8 => {
                    let most = self.r.one_of(&[1, 3, 40]);
                    self.list_all(most)?
                }
                n => {
                    let at = self.r.below(yukeira::READINGS as u64) as usize;
                    self.plain.readings[at] = value(&mut self.r, 3);
                    if n > 13 {
                        let step = self.r.one_of(&[1, 8, 80, 2_400, 4_800, 48_000, 524_240]);
                        (day, time) = if time + step < DAY { (day, time + step) } else { (day % 366 + 1, 0) };
                    }
                    let table = self.r.within(1, 2) as u8;
                    self.scan(table, day, time)?
                }
            };
        }
        Ok(())
    }

    /// A scan at this time or, mostly, at the last time before it at which the table is due.
    fn scan(&mut self, table: u8, day: u32, time: u32) -> Outcome<u8> {
        if self.r.once_in(6) {
            spoil::flags(&mut self.r, self.plain);
        }
        let interval = interval(self.plain, table);
        let late = if interval == 0 || self.r.once_in(8) { 0 } else { time % interval };
        self.call(Call::Scan { table, day, time: time - late })
    }

    /// Each call with one thing or more that is not allowed, or that only just is.
    fn refused(&mut self) -> Outcome<()> {
        let (r, s) = (&mut self.r, &mut *self.plain);
        let (mut table, mut day, mut time) = (r.within(1, 2) as u8, r.within(1, 366) as u32, 0);
        spoil::listed(r, s);
        for _ in 0..r.one_of(&[1, 1, 2, 4]) {
            match r.below(12) {
                0 => day = r.one_of(&[0, 1, 366, 367, 65_537, u32::MAX]),
                1 => time = r.one_of(&[DAY - 8, DAY - 1, DAY, u32::MAX]),
                2 => table = r.one_of(&[0, 3, 4, 255]),
                3..=5 => spoil::state(r, s),
                6 => spoil::record(r, s),
                _ => spoil::lengths(r, s),
            }
        }
        let n = r.one_of(&[0, 1, 2_000, 2_001, u32::MAX]);
        let bits = spoil::float(r).to_bits();
        let f = r.below(256) as u8;
        s.told = told(r);
        let calls = [
            Call::Scan { table, day, time },
            Call::KeyLocation { n, bits },
            Call::KeyFlag { f },
            Call::List { k: 0, j: 0 },
            Call::Next,
            Call::CheckRecord,
            Call::Fresh,
        ];
        for call in calls {
            self.call(call)?;
        }
        Ok(())
    }

    fn texts(&mut self) -> Outcome<()> {
        self.plain.numbers.put([1; yukeira::RECORD_NUMBERS]);
        self.plain.values.put([f32::NAN; yukeira::RECORD_VALUES]);
        self.plain.told = told(&mut self.r);
        let text = match self.r.below(100) {
            0 => spoil::long_text(&mut self.r),
            1 => {
                let source = near_the_limit(&mut self.r);
                spoil::text(&mut self.r, &source, true)
            }
            2..9 => {
                let mut source = source(&mut self.r);
                spoil::header(&mut self.r, &mut source);
                spoil::text(&mut self.r, &source, true)
            }
            n => {
                let source = source(&mut self.r);
                spoil::text(&mut self.r, &source, n % 2 == 0)
            }
        };
        self.plain.text.put(text);
        if self.r.once_in(60) {
            spoil::lengths(&mut self.r, self.plain);
        }
        match self.call(Call::CheckText)? {
            0 => self.passed(),
            10..=22 => self.unjudged(),
            _ => Ok(()),
        }
    }

    /// The record of a text whose fault is not in the text itself.
    fn unjudged(&mut self) -> Outcome<()> {
        let s = &mut *self.plain;
        let mut p = plain::Program::empty();
        if plain::read_text(&s.text, &mut p).is_ok() {
            plain::write_record(&p, (&mut *s.numbers).try_into().unwrap(), (&mut *s.values).try_into().unwrap());
        }
        self.call(Call::CheckRecord)?;
        self.lend();
        self.run(1)
    }

    fn passed(&mut self) -> Outcome<()> {
        let steps = self.plain.told.first.max(self.plain.told.second);
        self.call(Call::CheckRecord)?;
        self.lend();
        match self.r.below(3) {
            0 => {
                spoil::record(&mut self.r, self.plain);
                let passed = self.call(Call::CheckRecord)? == 0;
                self.lend();
                self.run(if passed { 6 } else { 2 })
            }
            _ if steps > 5_000 => self.run(3),
            _ => {
                let calls = self.r.one_of(&[6, 20, 60]);
                self.run(calls)
            }
        }
    }

    fn any_record(&mut self) -> Outcome<()> {
        self.plain.numbers.resize(yukeira::RECORD_NUMBERS);
        self.plain.values.resize(yukeira::RECORD_VALUES);
        spoil::any_record(&mut self.r, self.plain);
        self.call(Call::CheckRecord)?;
        self.lend();
        self.run(2)
    }
}

/// V of Table 1 or 2.
fn interval(s: &Side, table: u8) -> u32 {
    let at = 2 * usize::from(table);
    u32::from(s.numbers[at]) + 65_536 * u32::from(s.numbers[at + 1])
}

fn is_due(s: &Side, table: u8, time: u32) -> bool {
    let interval = interval(s, table);
    interval != 0 && time.is_multiple_of(interval)
}

/// What stands in the numbers that calls write.
fn told(r: &mut Random) -> Told {
    let [first, second] = [r.bits() as u32, r.bits() as u32];
    let [number, id] = [r.bits() as u16, r.bits() as u16];
    Told { table: 9, entry: 9, first, second, number, places: 9, negative: 9, id, count: r.bits() as usize }
}

/// A tame number, or once in `wild` times any.
fn value(r: &mut Random, wild: u64) -> f32 {
    if wild > 0 && r.once_in(wild) {
        spoil::float(r)
    } else {
        (r.below(401) as f32 - 200.0) / 8.0
    }
}

/// Calls until there were `calls`; scene n goes by the seed `seed` + n. Answers whether there was no difference.
pub fn differences(calls: u64, seed: u64) -> bool {
    let mut tally = Tally::default();
    let (mut plain, mut proved, mut before) = (Side::new(), Side::new(), Side::new());
    let mut scene_seed = seed;
    while tally.total < calls {
        plain.take(&Side::new());
        let mut scene = Scene {
            r: Random::new(scene_seed),
            tally: &mut tally,
            plain: &mut plain,
            proved: &mut proved,
            before: &mut before,
            stored: false,
        };
        let outcome = match scene.r.below(16) {
            0 => scene.any_record(),
            1 => scene.listings(),
            _ => scene.texts(),
        };
        if let Err(Difference(told)) = outcome {
            println!("A difference, call {} (again by: differences 1 {scene_seed})\n{told}", tally.total + 1);
            return false;
        }
        scene_seed = scene_seed.wrapping_add(1);
    }
    tally.print();
    println!("{} calls in {} scenes, seed {seed}: no difference", tally.total, scene_seed.wrapping_sub(seed));
    true
}
