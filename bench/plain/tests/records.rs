//! Records and states at random.

use plain::*;
use random::Random;

#[test]
fn sizes() {
    assert_eq!(std::mem::size_of::<Instruction>(), 16);
}

struct Made(Random);

impl Made {
    fn below(&mut self, n: u64) -> u64 {
        self.0.below(n)
    }

    fn location(&mut self, most: u16) -> Location {
        Location { number: self.below(most as u64 + 1) as u16, indexed: self.below(3) == 0 }
    }

    fn float(&mut self) -> f32 {
        match self.below(12) {
            0 => f32::from_bits(self.below(1 << 32) as u32),
            _ => (self.below(400) as f32 - 200.0) / 8.0,
        }
    }

    fn command(&mut self) -> Command {
        let small = [self.below(10), self.below(256)][(self.below(40) == 0) as usize] as u8;
        match self.below(12) {
            0 => Command::ToEnd,
            1 | 2 => Command::Call(small),
            3 | 4 => Command::Raise(small),
            5 => Command::Lower(small),
            6..=8 => Command::ThenDo,
            9 => Command::ExitIfTrue,
            10 => Command::ExitIfFalse,
            _ => Command::PortHigh(small),
        }
    }

    fn entry(&mut self, i: u16, table_3: bool) -> Instruction {
        let reps = 1 + self.below(3) as u8;
        let (x, y, to) = (self.location(i), self.location(i), self.location(i));
        let value = (self.below(100) as f32 - 50.0) / 4.0;
        let scale = Scale { multiplier: value, offset: 1.5 };
        let relation = [Relation::Equal, Relation::NotEqual, Relation::AtLeast, Relation::Less][self.below(4) as usize];
        let kind =
            [Statistic::Average, Statistic::Total, Statistic::Maximum, Statistic::Minimum][self.below(4) as usize];
        match self.below(if table_3 { 32 } else { 28 }) {
            0 => Instruction::Single { reps, range: 1, channel: self.below(200) as u8, to, scale },
            1 => Instruction::Differential { reps, range: 1, channel: self.below(100) as u8, to, scale },
            2 => Instruction::Fix { value, to },
            3 => Instruction::Move { x, to },
            4 => Instruction::Increment { to },
            5 => Instruction::Add { x, y, to },
            6 => Instruction::AddFixed { x, value, to },
            7 => Instruction::Subtract { x, y, to },
            8 => Instruction::Multiply { x, y, to },
            9 => Instruction::MultiplyFixed { x, value, to },
            10 => Instruction::Divide { x, y, to },
            11 => Instruction::Sample { reps, from: x },
            12 => Instruction::Statistic { kind, reps, from: x },
            13 => Instruction::Clock(Clock::DayAndTime),
            14 => Instruction::Do(self.command()),
            15 => Instruction::Loop { delay: 0, count: self.below(6) as u16 },
            16 => Instruction::IfLocation { x, relation, y, command: self.command() },
            17 => Instruction::IfFixed { x, relation, value, command: self.command() },
            18 => Instruction::IfFlag { flag: self.below(10) as u8, high: self.below(2) == 0, command: self.command() },
            19 => Instruction::IfTime { into: 0, interval: 1, command: self.command() },
            20 | 21 => Instruction::Else,
            22..=27 => Instruction::End,
            _ => Instruction::Subroutine(1 + self.below(9) as u8),
        }
    }
}

fn any_program(r: &mut Made) -> Program {
    let mut p = Program::empty();
    p.locations = 1 + r.below(40) as u16;
    p.sums = r.below(30) as u16;
    p.intervals = [[1, 7, 8][r.below(3) as usize], 8];
    for t in 0..3 {
        p.lengths[t] = r.below([7, 5, 9][t]) as u8;
        for e in 0..p.lengths[t] as usize {
            p.entries[t][e] = r.entry(p.locations, t == 2);
        }
        if t == 2 && p.lengths[2] > 1 {
            p.entries[2][0] = Instruction::Subroutine(1 + r.below(2) as u8);
            p.entries[2][p.lengths[2] as usize - 1] = Instruction::End;
        }
    }
    p
}

/// Any record and any state: a call ends without a panic, and a refused one changes nothing.
#[test]
fn any_record() {
    let mut r = Made(Random::new(1));
    let (mut passed, mut ran) = (0, 0);
    for _ in 0..60_000 {
        let p = any_program(&mut r);
        passed += check_record(&p).passed() as u32;
        let mut state = State::fresh();
        let readings: Vec<f32> = (0..196).map(|_| r.float()).collect();
        let mut locations: Vec<f32> = (0..p.locations).map(|_| r.float()).collect();
        let mut sums: Vec<f32> = (0..p.sums).map(|_| r.float()).collect();
        let mut counts = vec![0; 297];
        counts[r.below(297) as usize] = [0, 1, 16_777_214, 16_777_215, 16_777_216][r.below(5) as usize];
        let mut ring = vec![0; 1 + r.below(20) as usize];
        state.position = r.below(22) as u16;
        for s in 0..4 {
            let before = (state, locations.clone(), sums.clone(), counts.clone(), ring.clone());
            let time = 8 * r.below(864_010) as u32;
            let answer = scan(
                &p,
                s % 2,
                r.below(370) as u32,
                time,
                &mut state,
                &readings,
                &mut locations,
                &mut sums,
                &mut counts,
                &mut ring,
            );
            if answer == 0 {
                ran += 1;
            } else {
                let bits = |v: &[f32]| v.iter().map(|x| x.to_bits()).collect::<Vec<_>>();
                assert_eq!(
                    (before.0, bits(&before.1), bits(&before.2), &before.3, &before.4),
                    (state, bits(&locations), bits(&sums), &counts, &ring)
                );
            }
            if answer == 30 {
                break;
            }
        }
    }
    eprintln!("any record: {passed} passed, {ran} scans ran");
}

/// A record that is written to the buffers and read again is the same, and so is what any numbers are read as.
#[test]
fn records_in_buffers() {
    let mut r = Made(Random::new(2));
    let (mut numbers, mut values) = ([1; RECORD_NUMBERS], [f32::NAN; RECORD_VALUES]);
    for _ in 0..2_000 {
        let mut p = any_program(&mut r);
        p.intervals[1] = r.below(1 << 32) as u32;
        write_record(&p, &mut numbers, &mut values);
        assert_eq!(read_record(&numbers, &values), p);
    }
    for _ in 0..500 {
        numbers.fill_with(|| [r.below(100), r.below(2_400), r.below(65_536)][r.below(3) as usize] as u16);
        values.fill(r.below(100) as f32);
        let p = read_record(&numbers, &values);
        write_record(&p, &mut numbers, &mut values);
        assert_eq!(read_record(&numbers, &values), p);
    }
}

#[test]
fn states_in_buffers() {
    let mut r = Made(Random::new(3));
    for _ in 0..500 {
        let numbers: [u16; STATE_NUMBERS] = std::array::from_fn(|_| r.below(3) as u16 * r.below(400) as u16);
        let state = read_state(&numbers);
        let mut written = [0; STATE_NUMBERS];
        write_state(&state, &mut written);
        assert_eq!(read_state(&written), state);
        assert_eq!(written[..18], numbers[..18].iter().map(|&n| u16::from(n != 0)).collect::<Vec<_>>());
        assert_eq!(written[18..], numbers[18..]);
    }
}
