//! The keyed text: faults 1 to 6, and the record it gives.

use crate::check::check_record;
use crate::program::*;
use crate::ranges::interval_allowed;
use crate::verdict::{fault, Verdict};

pub const LONGEST_TEXT: usize = 16_384;

/// The items of a line between its brackets; `None` where they are not parted by one space each, or one is empty or
/// holds a bracket. Only the first eight are kept.
pub fn items(body: &[u8]) -> Option<([&[u8]; 8], usize)> {
    let mut kept: [&[u8]; 8] = [&[]; 8];
    let mut n = 0;
    for item in body.split(|&b| b == b' ') {
        if item.is_empty() || item.iter().any(|b| matches!(b, b'(' | b')')) {
            return None;
        }
        if n < kept.len() {
            kept[n] = item;
        }
        n += 1;
    }
    Some((kept, n))
}

/// A whole number: 1 to 7 digits.
pub fn whole(item: &[u8]) -> Option<u32> {
    if item.is_empty() || item.len() > 7 {
        return None;
    }
    item.iter().try_fold(0, |n, b| b.is_ascii_digit().then(|| n * 10 + (b - b'0') as u32))
}

/// F: both operands of the one division are exact, so its result is the nearest binary32.
pub fn fixed(item: &[u8]) -> Option<f32> {
    const TENS: [f32; 5] = [1.0, 10.0, 100.0, 1_000.0, 10_000.0];
    let (negative, digits) = match item {
        [b'-', rest @ ..] => (true, rest),
        _ => (false, item),
    };
    let mut n = 0;
    let mut count = 0;
    let mut point = None;
    for &b in digits {
        match b {
            b'0'..=b'9' if count < 5 => {
                n = n * 10 + (b - b'0') as u32;
                count += 1;
            }
            b'.' if point.is_none() && count > 0 => point = Some(count),
            _ => return None,
        }
    }
    let places = match point {
        None if count > 0 => 0,
        Some(at) if at < count => count - at,
        _ => return None,
    };
    let value = n as f32 / TENS[places];
    Some(if negative && n != 0 { -value } else { value })
}

fn within(item: &[u8], least: u32, most: u32) -> Option<u32> {
    whole(item).filter(|n| (least..=most).contains(n))
}

/// A location's own range is fault 20's matter: one that no I reaches stays so in 16 bits.
fn location(item: &[u8]) -> Option<Location> {
    let (digits, indexed) = match item {
        [digits @ .., b'-', b'-'] => (digits, true),
        _ => (item, false),
    };
    let number = whole(digits)?.min(u16::MAX as u32) as u16;
    Some(Location { number, indexed })
}

fn reps(item: &[u8]) -> Option<u8> {
    within(item, 1, 99).map(|n| n as u8)
}

fn relation(item: &[u8]) -> Option<Relation> {
    Some(match whole(item)? {
        1 => Relation::Equal,
        2 => Relation::NotEqual,
        3 => Relation::AtLeast,
        4 => Relation::Less,
        _ => return None,
    })
}

fn command(item: &[u8]) -> Option<Command> {
    let n = within(item, 0, 99)? as u8;
    Some(match n {
        0 => Command::ToEnd,
        1..=9 | 79..=99 => Command::Call(n),
        10..=19 => Command::Raise(n - 10),
        20..=29 => Command::Lower(n - 20),
        30 => Command::ThenDo,
        31 => Command::ExitIfTrue,
        32 => Command::ExitIfFalse,
        41..=48 => Command::PortHigh(n - 40),
        51..=58 => Command::PortLow(n - 50),
        _ => return None,
    })
}

/// Instruction's count of parameters, or `None` for no such instruction.
fn parameters(instruction: u32) -> Option<usize> {
    Some(match instruction {
        94 | 95 => 0,
        32 | 77 | 85 | 86 => 1,
        30 | 31 | 70..=74 | 87 | 91 => 2,
        33..=38 | 92 => 3,
        88 | 89 => 4,
        1 | 2 => 7,
        _ => return None,
    })
}

/// The entry, or `None` where a parameter's kind or range is wrong.
fn entry(instruction: u32, a: &[&[u8]]) -> Option<Instruction> {
    Some(match instruction {
        1 | 2 => {
            let per_card = if instruction == 1 { 28 } else { 14 };
            let reps = reps(a[0])?;
            let range = within(a[1], 1, 18)? as u8;
            let card = within(a[2], 1, 7)?;
            let channel = ((card - 1) * per_card + within(a[3], 1, per_card)?) as u8;
            let to = location(a[4])?;
            let scale = Scale { multiplier: fixed(a[5])?, offset: fixed(a[6])? };
            if instruction == 1 {
                Instruction::Single { reps, range, channel, to, scale }
            } else {
                Instruction::Differential { reps, range, channel, to, scale }
            }
        }
        30 => Instruction::Fix { value: fixed(a[0])?, to: location(a[1])? },
        31 => Instruction::Move { x: location(a[0])?, to: location(a[1])? },
        32 => Instruction::Increment { to: location(a[0])? },
        34 | 37 => {
            let (x, value, to) = (location(a[0])?, fixed(a[1])?, location(a[2])?);
            if instruction == 34 {
                Instruction::AddFixed { x, value, to }
            } else {
                Instruction::MultiplyFixed { x, value, to }
            }
        }
        33 | 35 | 36 | 38 => {
            let (x, y, to) = (location(a[0])?, location(a[1])?, location(a[2])?);
            match instruction {
                33 => Instruction::Add { x, y, to },
                35 => Instruction::Subtract { x, y, to },
                36 => Instruction::Multiply { x, y, to },
                _ => Instruction::Divide { x, y, to },
            }
        }
        70 => Instruction::Sample { reps: reps(a[0])?, from: location(a[1])? },
        71..=74 => {
            let kind = match instruction {
                71 => Statistic::Average,
                72 => Statistic::Total,
                73 => Statistic::Maximum,
                _ => Statistic::Minimum,
            };
            Instruction::Statistic { kind, reps: reps(a[0])?, from: location(a[1])? }
        }
        77 => Instruction::Clock(match whole(a[0])? {
            10 => Clock::Time,
            100 => Clock::Day,
            110 => Clock::DayAndTime,
            _ => return None,
        }),
        85 => Instruction::Subroutine(within(a[0], 1, 99).map(|n| n as u8).filter(|&n| is_subroutine(n))?),
        86 => Instruction::Do(command(a[0]).filter(|c| !matches!(c, Command::ThenDo | Command::ExitIfFalse))?),
        87 => Instruction::Loop { delay: within(a[0], 0, 0)? as u16, count: within(a[1], 1, 9_999)? as u16 },
        88 => Instruction::IfLocation {
            x: location(a[0])?,
            relation: relation(a[1])?,
            y: location(a[2])?,
            command: command(a[3])?,
        },
        89 => Instruction::IfFixed {
            x: location(a[0])?,
            relation: relation(a[1])?,
            value: fixed(a[2])?,
            command: command(a[3])?,
        },
        91 => {
            let n = within(a[0], 10, 29)? as u8;
            Instruction::IfFlag { flag: n % 10, high: n < 20, command: command(a[1])? }
        }
        92 => Instruction::IfTime {
            into: within(a[0], 0, 1_439)? as u16,
            interval: within(a[1], 1, 1_440)? as u16,
            command: command(a[2])?,
        },
        94 => Instruction::Else,
        _ => Instruction::End,
    })
}

/// An entry's line, or its fault 1 to 4.
fn entry_line(line: &[u8]) -> Result<Instruction, u8> {
    let [b'(', body @ .., b')'] = line else {
        return Err(1);
    };
    let (kept, n) = items(body).ok_or(1)?;
    let instruction = whole(kept[0]).ok_or(2)?;
    let count = parameters(instruction).ok_or(3)?;
    if n != count + 1 {
        return Err(4);
    }
    entry(instruction, &kept[1..]).ok_or(2)
}

/// The next line, without its byte 10.
fn next_line<'a>(rest: &mut &'a [u8]) -> Option<&'a [u8]> {
    let n = rest.iter().position(|&b| b == b'\n')?;
    let line = &rest[..n];
    *rest = &rest[n + 1..];
    Some(line)
}

/// The items of a line that opens the program or a table, behind its own word (and the table's digit).
fn opening<'a>(line: Option<&'a [u8]>, head: &[&[u8]], numbers: usize) -> Option<[&'a [u8]; 2]> {
    let (kept, n) = items(line?.strip_prefix(b"(")?)?;
    if n != head.len() + numbers || kept[..head.len()] != *head {
        return None;
    }
    Some([kept[head.len()], kept[head.len() + 1]])
}

/// The record that a text says, or fault 1 to 6; the record itself is not judged.
pub fn read_text(text: &[u8], p: &mut Program) -> Result<(), Verdict> {
    if text.len() > LONGEST_TEXT {
        return Err(fault(1, 0, 0));
    }
    let mut rest = text;
    let [i, m] = opening(next_line(&mut rest), &[b"program"], 2).ok_or(fault(1, 0, 0))?;
    p.locations = within(i, 1, 2_000).ok_or(fault(2, 0, 0))? as u16;
    p.sums = within(m, 0, 2_000).ok_or(fault(2, 0, 0))? as u16;
    for t in 0..3 {
        let digit: &[u8] = [b"1", b"2", b"3"][t];
        let line = next_line(&mut rest);
        let [v, _] = opening(line, &[b"table", digit], usize::from(t < 2)).ok_or(fault(1, t + 1, 0))?;
        if t < 2 {
            let v = whole(v).ok_or(fault(2, t + 1, 0))?;
            if !interval_allowed(t, v) {
                return Err(fault(5, t + 1, 0));
            }
            p.intervals[t] = v;
        }
        let mut n = 0;
        loop {
            let line = next_line(&mut rest).ok_or(fault(1, t + 1, n + 1))?;
            if line == b")" {
                break;
            }
            let entry = entry_line(line).map_err(|number| fault(number, t + 1, n + 1))?;
            if n == ENTRIES {
                return Err(fault(6, t + 1, n + 1));
            }
            p.entries[t][n] = entry;
            n += 1;
            p.lengths[t] = n as u8;
        }
    }
    if next_line(&mut rest) != Some(b")") || !rest.is_empty() {
        return Err(fault(1, 0, 0));
    }
    Ok(())
}

pub fn check_text(text: &[u8]) -> (Verdict, Program) {
    let mut p = Program::empty();
    let verdict = match read_text(text, &mut p) {
        Ok(()) => check_record(&p),
        Err(verdict) => verdict,
    };
    if !verdict.passed() {
        p = Program::empty();
    }
    (verdict, p)
}
