mod common;
use common::{cases, compare, text, verdict, words};
use plain::*;

const FOLDER: &str = concat!(env!("CARGO_MANIFEST_DIR"), "/../../crates/test_text");

fn number(w: &[&str], n: usize) -> u64 {
    w.get(n).map_or(0, |s| s.parse().unwrap())
}

/// A location of the case file: 65,536 and more are indexed.
fn location(n: u64) -> Location {
    Location { number: (n % 65_536) as u16, indexed: n >= 65_536 }
}

fn value(n: u64) -> f32 {
    match n {
        0 => 0.0,
        1 => 1.0,
        2 => f32::INFINITY,
        3 => f32::NEG_INFINITY,
        4 => f32::NAN,
        5 => f32::MAX,
        6 => f32::MIN,
        7 => f32::from_bits(1),
        8 => -0.0,
        _ => panic!("value {n}"),
    }
}

fn relation(n: u64) -> Relation {
    match n {
        1 => Relation::Equal,
        2 => Relation::NotEqual,
        3 => Relation::AtLeast,
        4 => Relation::Less,
        _ => panic!("relation {n}"),
    }
}

fn command(kind: u64, n: u64) -> Command {
    let n = n as u8;
    match kind {
        0 => Command::ToEnd,
        1 => Command::Call(n),
        2 => Command::Raise(n),
        3 => Command::Lower(n),
        4 => Command::ThenDo,
        5 => Command::ExitIfTrue,
        6 => Command::ExitIfFalse,
        7 => Command::PortHigh(n),
        8 => Command::PortLow(n),
        _ => panic!("command {kind}"),
    }
}

fn entry(w: &[&str]) -> Instruction {
    let a = |n: usize| number(w, n + 4);
    let scale = || Scale { multiplier: value(a(4)), offset: value(a(5)) };
    let (reps, range, channel) = (a(0) as u8, a(1) as u8, a(2) as u8);
    let kind = match number(w, 3) {
        72 => Statistic::Total,
        73 => Statistic::Maximum,
        74 => Statistic::Minimum,
        _ => Statistic::Average,
    };
    match number(w, 3) {
        1 => Instruction::Single { reps, range, channel, to: location(a(3)), scale: scale() },
        2 => Instruction::Differential { reps, range, channel, to: location(a(3)), scale: scale() },
        30 => Instruction::Fix { value: value(a(0)), to: location(a(1)) },
        31 => Instruction::Move { x: location(a(0)), to: location(a(1)) },
        32 => Instruction::Increment { to: location(a(0)) },
        34 => Instruction::AddFixed { x: location(a(0)), value: value(a(1)), to: location(a(2)) },
        37 => Instruction::MultiplyFixed { x: location(a(0)), value: value(a(1)), to: location(a(2)) },
        70 => Instruction::Sample { reps, from: location(a(1)) },
        71..=74 => Instruction::Statistic { kind, reps, from: location(a(1)) },
        85 => Instruction::Subroutine(a(0) as u8),
        86 => Instruction::Do(command(a(0), a(1))),
        87 => Instruction::Loop { delay: a(0) as u16, count: a(1) as u16 },
        88 => Instruction::IfLocation {
            x: location(a(0)),
            relation: relation(a(1)),
            y: location(a(2)),
            command: command(a(3), a(4)),
        },
        89 => Instruction::IfFixed {
            x: location(a(0)),
            relation: relation(a(1)),
            value: value(a(2)),
            command: command(a(3), a(4)),
        },
        91 => Instruction::IfFlag { flag: a(0) as u8, high: a(1) == 1, command: command(a(2), a(3)) },
        92 => Instruction::IfTime { into: a(0) as u16, interval: a(1) as u16, command: command(a(2), a(3)) },
        94 => Instruction::Else,
        95 => Instruction::End,
        // No instruction; used only where nothing judges it.
        40 => Instruction::Else,
        n => panic!("instruction {n}"),
    }
}

#[test]
fn texts_and_records() {
    let mut ours = Vec::new();
    for case in cases(&format!("{FOLDER}/stdin")) {
        let text = text(&case);
        let (v, program) = check_text(&text);
        let mut line = format!("{} {}", case.name, verdict(v));
        if v.passed() {
            line += if check_record(&program) == v { " same" } else { " differs" };
        } else {
            assert_eq!(program, Program::empty());
        }
        ours.push(line);
        let mut p = program;
        for line in &case.lines {
            let w = words(line);
            match w.first().copied() {
                Some("@set") => match w[1] {
                    "i" => p.locations = number(&w, 2) as u16,
                    "m" => p.sums = number(&w, 2) as u16,
                    "v" => p.intervals[number(&w, 2) as usize - 1] = number(&w, 3) as u32,
                    "n" => p.lengths[number(&w, 2) as usize - 1] = number(&w, 3) as u8,
                    other => panic!("@set {other}"),
                },
                Some("@put") => p.entries[number(&w, 1) as usize - 1][number(&w, 2) as usize - 1] = entry(&w),
                Some("@record") => ours.push(format!("{} {}", w[1], verdict(check_record(&p)))),
                _ => {}
            }
        }
    }
    compare("texts and records", &ours, &format!("{FOLDER}/stdout"));
}
