//! How long a call takes: the least of many short runs, in which the proved and the plain library take turns.

use crate::side::{by_plain, by_proved, Call, Side, Told};
use crate::tables;
use plain::State;
use std::hint::black_box;
use std::time::{Duration, Instant};

/// A run is at least this long, unless one call is longer.
const RUN: Duration = Duration::from_micros(40);

/// One line of the table: the buffers at its start, and what call number `step` is.
struct Row {
    name: &'static str,
    /// A run is a multiple of so many calls, so that each run does the same work.
    unit: u64,
    side: Side,
    call: fn(&mut Side, u64) -> Call,
    proved: fn(&mut Side, Call) -> u8,
    plain: fn(&mut Side, Call) -> u8,
}

/// Anything that carries out a row's calls one after the other.
struct Runner<F> {
    side: Side,
    step: u64,
    by: F,
    times: Vec<f64>,
}

impl<F: FnMut(&mut Side, Call) -> u8> Runner<F> {
    fn new(row: &Row, by: F) -> Runner<F> {
        let mut side = Side::new();
        side.take(&row.side);
        Runner { side, step: 0, by, times: Vec::new() }
    }

    fn run(&mut self, calls: u64, make: fn(&mut Side, u64) -> Call) -> Duration {
        let begin = Instant::now();
        for _ in 0..calls {
            let call = make(&mut self.side, self.step);
            let answer = (self.by)(black_box(&mut self.side), black_box(call));
            assert!(black_box(answer) < 3, "a timed call is refused");
            self.step += 1;
        }
        let time = begin.elapsed();
        self.times.push(time.as_secs_f64() * 1e9 / calls as f64);
        time
    }

    /// The least time of a call, and how much the median lies above it.
    fn least(&mut self) -> (f64, f64) {
        self.times.sort_by(f64::total_cmp);
        (self.times[0], self.times[self.times.len() / 2] / self.times[0])
    }
}

/// The plain library with its own record and state, which the buffers do not hold.
fn native(row: &Row) -> impl FnMut(&mut Side, Call) -> u8 {
    let p = plain::read_record(row.side.numbers[..].try_into().unwrap(), row.side.values[..].try_into().unwrap());
    let mut state = plain::read_state(row.side.state[..].try_into().unwrap());
    move |s, call| match call {
        Call::CheckText => refused_unless(black_box(plain::check_text(&s.text)).0.passed()),
        Call::CheckRecord => refused_unless(plain::check_record(black_box(&p)).passed()),
        Call::Scan { table, day, time } => plain::scan(
            black_box(&p),
            usize::from(table) - 1,
            day,
            time,
            &mut state,
            &s.readings,
            &mut s.locations,
            &mut s.sums,
            &mut s.counts,
            &mut s.ring,
        ),
        Call::KeyLocation { n, bits } => plain::key_location(black_box(&p), n, f32::from_bits(bits), &mut s.locations),
        Call::KeyFlag { f } => plain::key_flag(black_box(&p), f, &mut state),
        Call::Fresh | Call::List { .. } => unreachable!("not timed"),
        Call::Next => listed_by_iterator(&state, s),
    }
}

fn refused_unless(passed: bool) -> u8 {
    if passed {
        0
    } else {
        30
    }
}

/// Every item of the ring, added up.
fn listed_by_iterator(state: &State, s: &mut Side) -> u8 {
    let Ok(arrays) = plain::arrays(state, &s.ring) else {
        return 31;
    };
    let mut total = 0;
    for array in arrays {
        total += u32::from(array.id);
        for value in array {
            total += u32::from(value.digits) + u32::from(value.places) + u32::from(value.negative);
        }
    }
    s.told.first = total;
    0
}

/// Every array of the ring, one call of `next` an array; ids and counts added up.
fn listed_by_calls(s: &mut Side, call: Call, by: fn(&mut Side, Call) -> u8) -> u8 {
    let mut total = 0;
    s.cursor.fill(0);
    loop {
        match by(black_box(s), call) {
            1 => total += u32::from(s.told.id) + s.told.count as u32,
            answer => {
                s.told = Told { first: total, ..Told::default() };
                return answer;
            }
        }
    }
}

fn all_by_plain(s: &mut Side, call: Call) -> u8 {
    listed_by_calls(s, call, by_plain)
}

fn all_by_proved(s: &mut Side, call: Call) -> u8 {
    listed_by_calls(s, call, by_proved)
}

/// The buffers of a passed text, with a ring of so many words.
fn keyed(text: &[u8], ring: usize) -> Side {
    let mut s = Side::new();
    s.text.put(text.iter().copied());
    assert_eq!(by_plain(&mut s, Call::CheckText), 0, "a timed table does not pass");
    s.locations.put(vec![0.0; s.numbers[0].into()]);
    s.sums.put(vec![0.0; s.numbers[1].into()]);
    s.ring.put(vec![0; ring]);
    s.listed.put(vec![0; ring]);
    s.told = Told::default();
    s
}

fn check_text(s: &mut Side, step: u64) -> Call {
    // The last digit of the first entry's multiplier, 0.5.
    let at = s.text.windows(3).position(|w| w == b" 0.").unwrap();
    s.text[at + 3] = b'0' + (step % 10) as u8;
    Call::CheckText
}

fn check_record(s: &mut Side, step: u64) -> Call {
    s.values[0] = (step % 64) as f32;
    Call::CheckRecord
}

/// Ten scans a minute.
fn scan(s: &mut Side, step: u64) -> Call {
    s.readings[(step % 28) as usize] = (step % 512) as f32 / 16.0;
    let minute = step / 10;
    Call::Scan { table: 1, day: (minute / 1_440 % 366) as u32 + 1, time: (step % 14_400 * 480) as u32 }
}

fn key_location(_: &mut Side, step: u64) -> Call {
    Call::KeyLocation { n: (step % 120) as u32 + 1, bits: (step as f32).to_bits() }
}

fn key_flag(_: &mut Side, step: u64) -> Call {
    Call::KeyFlag { f: (step % 8) as u8 + 1 }
}

fn listing(s: &mut Side, step: u64) -> Call {
    let at = (step % 1_000 * 31) as usize;
    if s.ring[at] < 64_512 {
        s.ring[at] = plain::value_word(step as f32 / 8.0);
    }
    Call::Next
}

/// A ring that output has filled and gone round.
fn filled() -> Side {
    let mut s = keyed(&tables::output(), yukeira::LONGEST_RING);
    for step in 0..1_500 {
        let call = scan(&mut s, step);
        assert_eq!(by_plain(&mut s, call), 0);
    }
    s
}

fn rows() -> Vec<Row> {
    let row = |name, side, call| Row { name, unit: 10, side, call, proved: by_proved, plain: by_plain };
    let one = |name, side, call| Row { unit: 1, ..row(name, side, call) };
    let (small, large) = (|| keyed(&tables::small(), 1_024), || keyed(&tables::large(), 1_024));
    vec![
        row("check of a text, 10 entries", small(), check_text),
        row("check of a text, 99 entries", large(), check_text),
        row("check of a record, 10 entries", small(), check_record),
        row("check of a record, 99 entries", large(), check_record),
        row("scan (a), 10 entries", small(), scan),
        row("scan (b), 99 entries, 28 channels", large(), scan),
        one("scan (c), loop, 60,000 counted", keyed(&tables::long_loop(), 64), scan),
        row("scan (d), seven subroutines deep", keyed(&tables::deep(), 64), scan),
        row("scan (e), 30 values stored", keyed(&tables::output(), yukeira::LONGEST_RING), scan),
        row("scan (f), loop of indexed entries", keyed(&tables::indexed_loop(0), 64), scan),
        row("scan (g), the same in four Then Dos", keyed(&tables::indexed_loop(4), 64), scan),
        row("key a location, 99 entries", large(), key_location),
        row("key a flag, 99 entries", large(), key_flag),
        Row { proved: all_by_proved, plain: all_by_plain, ..one("list a ring of 32,768 words", filled(), listing) },
    ]
}

fn measure(row: &Row, budget: Duration) {
    let mut proved = Runner::new(row, row.proved);
    let mut plain = Runner::new(row, row.plain);
    let mut native = Runner::new(row, native(row));
    let mut calls = row.unit;
    loop {
        proved.run(calls, row.call);
        native.run(calls, row.call);
        if plain.run(calls, row.call) >= RUN {
            break;
        }
        calls *= 2;
    }
    let begin = Instant::now();
    while begin.elapsed() < budget {
        proved.run(calls, row.call);
        plain.run(calls, row.call);
        native.run(calls, row.call);
    }
    assert!(proved.side.same(&plain.side), "{}: the buffers differ", row.name);
    let ((a, noise_a), (b, noise_b), (c, noise_c)) = (proved.least(), plain.least(), native.least());
    let noise = noise_a.max(noise_b).max(noise_c);
    println!("{:35} {a:10.0} {b:10.0} {c:10.0} {:9.2} {:9.2} {noise:9.2}", row.name, a / b, a / c);
}

pub fn times(budget: Duration) {
    println!(
        "Nanoseconds a call, the least of many runs. 'plain': the same calls on the same lent buffers; 'own': on its own record, and the listing by an iterator."
    );
    println!("Noise: the greatest of the three medians over their least.\n");
    let [proved, plain, own] = ["proved", "plain", "own"];
    println!("{:35} {proved:>10} {plain:>10} {own:>10}   / plain     / own     noise", "");
    for row in rows() {
        measure(&row, budget);
    }
}
