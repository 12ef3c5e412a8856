//! Keyed programs made at random by the grammar; nearly all pass.

use random::Random;

pub struct Source {
    pub locations: u64,
    pub sums: u64,
    pub intervals: [u64; 2],
    pub tables: [Vec<String>; 3],
}

pub const ENTRIES: usize = 99;

impl Source {
    pub fn lines(&self) -> Vec<Vec<u8>> {
        let mut lines = vec![format!("(program {} {}", self.locations, self.sums)];
        for (t, entries) in self.tables.iter().enumerate() {
            lines.push(match self.intervals.get(t) {
                Some(v) => format!("(table {} {v}", t + 1),
                None => format!("(table {}", t + 1),
            });
            lines.extend(entries.iter().map(|entry| format!("({entry})")));
            lines.push(")".into());
        }
        lines.push(")".into());
        lines.into_iter().map(String::into_bytes).collect()
    }
}

/// A loop and entries behind it, with a stated count of 59,998 to 60,002.
pub fn near_the_limit(r: &mut Random) -> Source {
    // A call of a subroutine with one entry and its End counts 3.
    let (inner, weight) = r.one_of(&[("32 1", 1), ("32 1", 1), ("86 7", 3)]);
    let body = r.within(6, 20);
    let pass = weight * body + 1;
    let rest = r.within(59_998, 60_002) - 1;
    let mut entries = vec![format!("87 0 {}", rest / pass)];
    entries.extend(vec![inner.into(); body as usize]);
    entries.push("95".into());
    entries.extend(vec!["34 1 0.5 2".into(); (rest % pass) as usize]);
    let subroutine = ["85 7", "32 1", "95"].map(String::from).to_vec();
    let mut tables = [entries, Vec::new(), subroutine];
    if r.once_in(3) {
        tables.swap(0, 1);
    }
    Source { locations: 2, sums: 0, intervals: [8, 8], tables }
}

/// Up to nine subroutines call later ones only; with more than seven a chain can be too long.
pub fn source(r: &mut Random) -> Source {
    let mut numbers: Vec<u64> = (1..=9).chain(79..=99).collect();
    let count = if r.once_in(6) { r.within(6, 9) } else { r.below(4) };
    let subroutines: Vec<u64> =
        (0..count).map(|_| numbers.swap_remove(r.below(numbers.len() as u64) as usize)).collect();
    let budget = if r.once_in(60) { 55_000 } else { 1_500 };
    let locations = r.one_of(&[1, 2, 6, 12, 12, 30, 30, 100, 300, 2_000]);
    let mut maker = Maker { r, locations, subroutines, costs: Vec::new(), sums: 0, budget };
    let third = maker.subroutine_table();
    let (first, second) = (maker.table(), maker.table());
    let sums = (maker.sums + r.one_of(&[0, 0, 1, 30])).min(2_000);
    let intervals =
        [r.one_of(&[1, 1, 3, 7, 8, 8, 80, 4_800, 0, 524_240]), r.one_of(&[8, 8, 16, 80, 2_400, 4_800, 0, 524_240])];
    Source { locations, sums, intervals, tables: [first, second, third] }
}

pub fn whole(r: &mut Random, n: u64) -> String {
    if r.once_in(30) {
        let width = r.within(1, 7) as usize;
        format!("{n:0width$}")
    } else {
        n.to_string()
    }
}

pub fn fixed(r: &mut Random) -> String {
    let sign = if r.once_in(3) { "-" } else { "" };
    let digits = r.within(1, 5) as usize;
    let number = match r.below(6) {
        0 => 0,
        1 => 99_999,
        _ => r.below(100_000),
    } % 10_u64.pow(digits as u32);
    let number = format!("{number:0digits$}");
    let point = r.below(digits as u64) as usize;
    if point == 0 {
        format!("{sign}{number}")
    } else {
        format!("{sign}{}.{}", &number[..point], &number[point..])
    }
}

struct Maker<'a> {
    r: &'a mut Random,
    locations: u64,
    subroutines: Vec<u64>,
    /// The stated counts of the last subroutines, from the last one on.
    costs: Vec<u64>,
    sums: u64,
    budget: u64,
}

/// Where a body of entries stands.
#[derive(Clone, Copy)]
struct Place {
    /// Subroutines from this one on are called.
    callees: usize,
    depth: usize,
    deepest: usize,
    /// The count of the innermost own loop.
    own: Option<u64>,
    /// How often an entry here is counted.
    weight: u64,
}

/// The entries of one table or subroutine so far.
struct Body {
    entries: Vec<String>,
    room: usize,
    cost: u64,
}

impl Maker<'_> {
    fn place(&mut self, callees: usize) -> Place {
        let deepest = if self.r.once_in(12) { 11 } else { 4 };
        Place { callees, depth: 0, deepest, own: None, weight: 1 }
    }

    fn table(&mut self) -> Vec<String> {
        let room = if self.r.once_in(10) { ENTRIES } else { self.r.below(25) as usize };
        let mut body = Body { entries: Vec::new(), room, cost: 0 };
        let place = self.place(0);
        self.body(&mut body, place, room as u64);
        body.entries
    }

    fn subroutine_table(&mut self) -> Vec<String> {
        let count = self.subroutines.len();
        let chained = self.r.once_in(2);
        let mut all: Vec<Vec<String>> = Vec::new();
        for s in (0..count).rev() {
            let room = self.r.within(0, (ENTRIES / count - 3).min(14) as u64) as usize;
            let mut body = Body { entries: vec![format!("85 {}", self.subroutines[s])], room, cost: 0 };
            let place = self.place(s + 1);
            self.body(&mut body, place, room as u64);
            if chained && s + 1 < count {
                body.entries.push(format!("86 {}", self.subroutines[s + 1]));
                body.cost += 1 + self.costs[count - 2 - s];
            }
            body.entries.push("95".into());
            self.costs.push(body.cost + 1);
            all.push(body.entries);
        }
        let from = self.r.below(count.max(1) as u64) as usize;
        all.rotate_left(from);
        all.concat()
    }

    /// A span of `reps` locations.
    fn location(&mut self, place: Place, reps: u64) -> String {
        let shift = place.own.unwrap_or(1) - 1;
        let indexed = reps + shift <= self.locations && self.r.once_in(2);
        let span = if indexed { reps + shift } else { reps };
        let most = (self.locations + 1).saturating_sub(span.max(1)).max(1);
        let n = if self.r.once_in(5) { self.within(most, most) } else { self.r.within(1, most.min(12)) };
        let n = whole(self.r, n);
        if indexed {
            n + "--"
        } else {
            n
        }
    }

    /// least to most, at times just that, and seldom one less or one more.
    fn within(&mut self, least: u64, most: u64) -> u64 {
        match self.r.below(3_000) {
            0 => least - 1,
            1 => most + 1,
            2..300 => most,
            300..600 => least,
            _ => self.r.within(least, most),
        }
    }

    fn reps(&mut self, most: u64) -> u64 {
        let most = most.min(self.locations).min(99);
        if self.r.once_in(6) {
            self.within(most, most)
        } else {
            self.r.within(1, most.min(3))
        }
    }

    fn measurement(&mut self, place: Place) -> String {
        let (instruction, channels) = self.r.one_of(&[(1, 28), (2, 14)]);
        let (card, channel) = (self.within(1, 7), self.within(1, channels));
        let reps = self.reps((7 * channels + 1).saturating_sub((card.max(1) - 1) * channels + channel).max(1));
        let range = self.within(1, 18);
        let to = self.location(place, reps);
        let (multiplier, offset) = (fixed(self.r), fixed(self.r));
        format!("{instruction} {reps} {range} {card} {channel} {to} {multiplier} {offset}")
    }

    fn command(&mut self, body: &mut Body, place: Place) -> String {
        let n = match self.r.below(16) {
            0 if self.r.once_in(3) => 0,
            1..=4 if place.callees < self.subroutines.len() => {
                let s = self.r.within(place.callees as u64, self.subroutines.len() as u64 - 1) as usize;
                let cost = self.costs[self.subroutines.len() - 1 - s] * place.weight;
                if body.cost + cost > self.budget {
                    10
                } else {
                    body.cost += cost;
                    self.subroutines[s]
                }
            }
            5 | 6 if place.own.is_some() => 31,
            7 | 8 => self.r.one_of(&[40, 50]) + self.within(1, 8),
            9 => self.r.one_of(&[19, 20, 29]),
            10 | 11 => self.within(10, 29),
            _ => 10,
        };
        whole(self.r, n)
    }

    fn test(&mut self, place: Place, command: &str) -> String {
        let x = self.location(place, 1);
        let relation = self.within(1, 4);
        match self.r.below(6) {
            0 => format!("88 {x} {relation} {} {command}", self.location(place, 1)),
            1 => format!("89 {x} {relation} {} {command}", fixed(self.r)),
            2 | 3 => {
                let interval = self.r.one_of(&[1, 1, 2, 10, 1_440]);
                let interval = self.within(interval, interval);
                let into = if self.r.once_in(300) { 1_440 } else { self.r.one_of(&[0, 0, 1, 5, 1_439]) };
                format!("92 {into} {interval} {command}")
            }
            _ => format!("91 {} {command}", self.within(10, 29)),
        }
    }

    fn simple(&mut self, body: &mut Body, place: Place) -> String {
        match self.r.below(19) {
            0 | 1 => self.measurement(place),
            2 => format!("30 {} {}", fixed(self.r), self.location(place, 1)),
            3 => format!("31 {} {}", self.location(place, 1), self.location(place, 1)),
            4 => format!("32 {}", self.location(place, 1)),
            5..=7 => {
                let (x, y, z) = (self.location(place, 1), self.location(place, 1), self.location(place, 1));
                format!("{} {x} {y} {z}", self.r.one_of(&[33, 35, 36, 38]))
            }
            8 | 9 => {
                let (x, z) = (self.location(place, 1), self.location(place, 1));
                format!("{} {x} {} {z}", self.r.one_of(&[34, 37]), fixed(self.r))
            }
            10 => {
                let reps = self.reps(99);
                format!("70 {reps} {}", self.location(place, reps))
            }
            11..=13 => {
                let reps = self.reps(99);
                self.sums += reps;
                format!("{} {reps} {}", self.r.within(71, 74), self.location(place, reps))
            }
            14 => format!("77 {}", self.r.one_of(&[10, 100, 110])),
            15 | 16 => format!("86 {}", self.command(body, place)),
            _ => {
                let command =
                    if place.own.is_some() && self.r.once_in(4) { "32".into() } else { self.command(body, place) };
                self.test(place, &command)
            }
        }
    }

    /// An If with or without an Else, or a loop; its End is kept room for.
    fn block(&mut self, body: &mut Body, place: Place) {
        body.room -= 2;
        body.cost += 2 * place.weight;
        let inner = Place { depth: place.depth + 1, ..place };
        let length = self.r.below(6);
        if self.r.once_in(2) {
            let afford = (self.budget.saturating_sub(body.cost) / (8 * place.weight)).max(1);
            let count = if self.r.once_in(8) { afford.min(9_999) } else { self.r.within(1, afford.min(5)) };
            body.entries.push(format!("87 0 {count}"));
            self.body(body, Place { own: Some(count), weight: place.weight * count, ..inner }, length);
            body.cost += place.weight * count;
        } else {
            let test = self.test(place, "30");
            body.entries.push(test);
            self.body(body, inner, length);
            if body.room > 0 && self.r.once_in(2) {
                body.room -= 1;
                body.cost += place.weight;
                body.entries.push("94".into());
                self.body(body, inner, length);
            }
        }
        body.entries.push("95".into());
    }

    fn body(&mut self, body: &mut Body, place: Place, length: u64) {
        for _ in 0..length {
            let deep = self.r.once_in(if place.deepest > 4 { 2 } else { 4 });
            if body.room >= 3 && place.depth < place.deepest && deep {
                self.block(body, place);
            } else if body.room > 0 {
                body.room -= 1;
                body.cost += place.weight;
                let entry = self.simple(body, place);
                body.entries.push(entry);
            }
        }
    }
}
