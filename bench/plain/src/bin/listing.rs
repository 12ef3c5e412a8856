//! 'One listing, whole': a keyed text, then readings and ticks, on standard input; the whole arrays on standard output.

use plain::{arrays, check_text, fixed, items, scan, whole, Program, State, Verdict, LONGEST_TEXT, SLOTS};
use std::io::{self, BufRead, BufWriter, Read, Write};

const RING: usize = 64;
/// No later line of the right form is longer: `(reading 0000196 -1234.5)`.
const LONGEST_LINE: usize = 25;

/// E and its number, table and entry.
struct Refusal(u8, u8, u8);

enum Failure {
    Refused(Refusal),
    Io(io::Error),
}

impl From<io::Error> for Failure {
    fn from(e: io::Error) -> Failure {
        Failure::Io(e)
    }
}

fn refused(number: u8) -> Failure {
    Failure::Refused(Refusal(number, 0, 0))
}

/// The input up to the first `)` line straight after a `)` line, or all of it, but no more than is needed to see
/// that it is too long.
fn read_text(input: &mut impl BufRead) -> io::Result<Vec<u8>> {
    let mut text = Vec::with_capacity(LONGEST_TEXT + 1);
    let mut closed = false;
    while text.len() <= LONGEST_TEXT {
        let at = text.len();
        let room = (LONGEST_TEXT + 1 - at) as u64;
        if input.by_ref().take(room).read_until(b'\n', &mut text)? == 0 {
            break;
        }
        let closing = &text[at..] == b")\n";
        if closed && closing {
            break;
        }
        closed = closing;
    }
    Ok(text)
}

struct Logger {
    program: Program,
    state: State,
    readings: [f32; 196],
    locations: Vec<f32>,
    sums: Vec<f32>,
    counts: [u32; SLOTS],
    ring: [u16; RING],
}

impl Logger {
    fn new(program: Program) -> Logger {
        Logger {
            state: State::fresh(),
            readings: [0.0; 196],
            locations: vec![0.0; program.locations as usize],
            sums: vec![0.0; program.sums as usize],
            counts: [0; SLOTS],
            ring: [0; RING],
            program,
        }
    }

    fn tick(&mut self, day: u32, time: u32) -> Result<(), Failure> {
        for table in 0..2 {
            let number = scan(
                &self.program,
                table,
                day,
                time,
                &mut self.state,
                &self.readings,
                &mut self.locations,
                &mut self.sums,
                &mut self.counts,
                &mut self.ring,
            );
            if number != 0 {
                return Err(refused(number));
            }
        }
        Ok(())
    }

    fn line(&mut self, line: &[u8]) -> Result<(), Failure> {
        let [b'(', body @ .., b')', b'\n'] = line else {
            return Err(refused(1));
        };
        let Some((kept, 3)) = items(body) else {
            return Err(refused(1));
        };
        match kept[0] {
            b"reading" => {
                let n = whole(kept[1]).filter(|n| (1..=196).contains(n)).ok_or(refused(1))?;
                self.readings[n as usize - 1] = fixed(kept[2]).ok_or(refused(1))?;
                Ok(())
            }
            b"tick" => {
                let day = whole(kept[1]).ok_or(refused(1))?;
                let time = whole(kept[2]).ok_or(refused(1))?;
                self.tick(day, time)
            }
            _ => Err(refused(1)),
        }
    }

    fn print(&self, out: &mut impl Write) -> Result<(), Failure> {
        for array in arrays(&self.state, &self.ring).map_err(refused)? {
            write!(out, "{}", array.id)?;
            for value in array {
                let sign = if value.negative { "-" } else { "" };
                let places = value.places as usize;
                let unit = 10_u16.pow(value.places as u32);
                write!(out, ",{sign}{}", value.digits / unit)?;
                if places > 0 {
                    write!(out, ".{:0places$}", value.digits % unit)?;
                }
            }
            writeln!(out)?;
        }
        Ok(())
    }
}

fn run(input: &mut impl BufRead, out: &mut impl Write) -> Result<(), Failure> {
    let (verdict, program) = check_text(&read_text(input)?);
    if let Verdict::Fault { number, table, entry } = verdict {
        return Err(Failure::Refused(Refusal(number, table, entry)));
    }
    let mut logger = Logger::new(program);
    let mut line = Vec::with_capacity(LONGEST_LINE + 1);
    loop {
        line.clear();
        if input.by_ref().take(LONGEST_LINE as u64 + 1).read_until(b'\n', &mut line)? == 0 {
            return logger.print(out);
        }
        logger.line(&line)?;
    }
}

fn main() -> io::Result<()> {
    let mut out = BufWriter::new(io::stdout().lock());
    match run(&mut io::stdin().lock(), &mut out) {
        Err(Failure::Refused(Refusal(number, table, entry))) => writeln!(out, "E {number} {table} {entry}")?,
        Err(Failure::Io(e)) => return Err(e),
        Ok(()) => {}
    }
    out.flush()
}
