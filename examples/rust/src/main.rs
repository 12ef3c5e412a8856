//! Document 01's worked example, keyed, run for three ticks and listed.

use yukeira::{COUNTS, CURSOR_NUMBERS, READINGS, RECORD_NUMBERS, RECORD_VALUES, STATE_NUMBERS};

const TEXT: &str = "\
(program 2 0
(table 1 80
(1 1 5 1 1 1 1.0 0.0)
(86 10)
(70 1 1)
)
(table 2 0
)
(table 3
)
)
";

/// The record, the state, and all that is lent to a scan. This record has no sums.
struct Logger {
    numbers: [u16; RECORD_NUMBERS],
    values: [f32; RECORD_VALUES],
    state: [u16; STATE_NUMBERS],
    readings: [f32; READINGS],
    locations: [f32; 2],
    counts: [u32; COUNTS],
    ring: [u16; 64],
}

fn expect(answer: u8, call: &str) {
    assert_eq!(answer, 0, "{call} is refused");
}

/// A value word in decimal.
fn value(word: u16) -> String {
    let (digits, places) = (word % 8_192, word / 8_192 % 4);
    let sign = if word / 32_768 == 1 { "-" } else { "" };
    let value = f64::from(digits) / 10_f64.powi(places.into());
    format!("{sign}{value:.*}", usize::from(places))
}

impl Logger {
    fn fresh() -> Logger {
        let mut logger = Logger {
            numbers: [0; RECORD_NUMBERS],
            values: [0.0; RECORD_VALUES],
            state: [0; STATE_NUMBERS],
            readings: [0.0; READINGS],
            locations: [0.0; 2],
            counts: [0; COUNTS],
            ring: [0; 64],
        };
        expect(yukeira::fresh(&mut logger.state), "fresh");
        logger
    }

    fn key_text(&mut self, text: &str) {
        let (mut table, mut entry, mut first, mut second) = (0, 0, 0, 0);
        match yukeira::check_text(
            text.as_bytes(),
            &mut self.numbers,
            &mut self.values,
            &mut table,
            &mut entry,
            &mut first,
            &mut second,
        ) {
            0 => println!("passed, stated counts {first} and {second}"),
            fault => println!("fault {fault} in table {table}, entry {entry}"),
        }
    }

    fn tick(&mut self, day: u32, time: u32) {
        for table in 1..=2 {
            let answer = yukeira::scan(
                &self.numbers,
                &self.values,
                table,
                day,
                time,
                &mut self.state,
                &self.readings,
                &mut self.locations,
                &mut [],
                &mut self.counts,
                &mut self.ring,
            );
            expect(answer, "scan");
        }
        println!("day {day}, {time}: location 1 is {}", self.locations[0]);
    }

    /// One array a line. If scans stored words meanwhile, the listing begins again with what the
    /// ring has by then.
    fn print_listing(&self) {
        let (mut cursor, mut words) = ([0; CURSOR_NUMBERS], [0; 64]);
        let (mut id, mut count) = (0, 0);
        let mut lines: Vec<String> = Vec::new();
        loop {
            match yukeira::next(
                &self.state,
                &self.ring,
                &mut cursor,
                &mut words,
                &mut id,
                &mut count,
            ) {
                1 => {
                    let values = words[..count].iter().map(|&word| value(word));
                    let items: Vec<String> = [id.to_string()].into_iter().chain(values).collect();
                    lines.push(items.join(","));
                }
                3 => {
                    cursor = [0; CURSOR_NUMBERS];
                    lines.clear();
                }
                answer => break expect(answer, "listing"),
            }
        }
        lines.iter().for_each(|line| println!("{line}"));
    }
}

fn main() {
    let mut logger = Logger::fresh();
    logger.key_text("(program 2 0\n(table 1 80\n(95)\n)\n(table 2 0\n)\n(table 3\n)\n)\n");
    logger.key_text(TEXT);

    logger.readings[0] = 2.5;
    logger.tick(1, 0);
    logger.tick(1, 40);
    let answer = yukeira::key_location(
        &logger.numbers,
        &logger.values,
        2,
        7.5,
        &mut logger.locations,
    );
    expect(answer, "key location 2");
    let answer = yukeira::key_flag(&logger.numbers, &logger.values, 1, &mut logger.state);
    expect(answer, "key flag 1");
    let flag = if logger.state[1] == 0 { "low" } else { "high" };
    println!(
        "keyed: location 2 is {}, flag 1 is {flag}",
        logger.locations[1]
    );
    logger.readings[0] = -0.0625;
    logger.tick(1, 80);
    logger.print_listing();
}
