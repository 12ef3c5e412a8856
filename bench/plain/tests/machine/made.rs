//! Tables and subroutines made at random; they pass but where they are too long.

use plain::*;
use random::Random;

pub struct Made(pub Random);

impl Made {
    pub fn below(&mut self, n: u64) -> u64 {
        self.0.below(n)
    }

    fn location(&mut self) -> Location {
        Location { number: 1 + self.below(12) as u16, indexed: self.below(2) == 0 }
    }

    fn value(&mut self) -> f32 {
        (self.below(41) as f32 - 20.0) / 4.0
    }

    pub fn float(&mut self) -> f32 {
        match self.below(10) {
            0 => f32::from_bits(self.below(1 << 32) as u32),
            1 => -0.0,
            _ => self.value(),
        }
    }

    fn command(&mut self, looped: bool, callee: u8) -> Command {
        match self.below(14) {
            0 if self.below(4) == 0 => Command::ToEnd,
            1..=3 if callee > 0 => Command::Call(1 + self.below(callee as u64) as u8),
            4 | 5 if looped => Command::ExitIfTrue,
            6 | 7 => Command::Raise([0, 0, 9, self.below(10) as u8][self.below(4) as usize]),
            8 => Command::Lower([0, 9, self.below(10) as u8][self.below(3) as usize]),
            9 => Command::PortHigh(1 + self.below(8) as u8),
            10 => Command::PortLow(1 + self.below(8) as u8),
            _ => Command::Raise(self.below(10) as u8),
        }
    }

    fn condition(&mut self, command: Command) -> Instruction {
        let relation = [Relation::Equal, Relation::NotEqual, Relation::AtLeast, Relation::Less][self.below(4) as usize];
        let (x, y) = (self.location(), self.location());
        match self.below(5) {
            0 => Instruction::IfLocation { x, relation, y, command },
            1 => Instruction::IfFixed { x, relation, value: self.value(), command },
            2 => Instruction::IfTime { into: self.below(2) as u16, interval: 1 + self.below(3) as u16, command },
            _ => Instruction::IfFlag { flag: self.below(10) as u8, high: self.below(2) == 0, command },
        }
    }

    /// Entries of a table or subroutine; it calls subroutines 1 to `callee`.
    pub fn body(&mut self, out: &mut Vec<Instruction>, depth: u32, looped: bool, callee: u8) {
        for _ in 0..1 + self.below(4) {
            let reps = 1 + self.below(3) as u8;
            let (x, y, to) = (self.location(), self.location(), self.location());
            let scale = Scale { multiplier: self.value(), offset: self.value() };
            let kind =
                [Statistic::Average, Statistic::Total, Statistic::Maximum, Statistic::Minimum][self.below(4) as usize];
            match self.below(26) {
                0 => out.push(Instruction::Single { reps, range: 1, channel: 1 + self.below(194) as u8, to, scale }),
                1 => {
                    out.push(Instruction::Differential { reps, range: 1, channel: 1 + self.below(96) as u8, to, scale })
                }
                2 => out.push(Instruction::Fix { value: self.value(), to }),
                3 => out.push(Instruction::Move { x, to }),
                4 => out.push(Instruction::Increment { to }),
                5 => out.push(Instruction::Add { x, y, to }),
                6 => out.push(Instruction::Subtract { x, y, to }),
                7 => out.push(Instruction::Multiply { x, y, to }),
                8 => out.push(Instruction::Divide { x, y, to }),
                9 => out.push(Instruction::AddFixed { x, value: self.value(), to }),
                10 => out.push(Instruction::MultiplyFixed { x, value: self.value(), to }),
                11 => out.push(Instruction::Sample { reps, from: x }),
                12 | 13 => out.push(Instruction::Statistic { kind, reps, from: x }),
                14 => {
                    out.push(Instruction::Clock([Clock::Time, Clock::Day, Clock::DayAndTime][self.below(3) as usize]))
                }
                15 | 16 => {
                    let command = self.command(looped, callee);
                    out.push(Instruction::Do(command));
                }
                17 | 18 => {
                    let command =
                        if looped && self.below(4) == 0 { Command::ExitIfFalse } else { self.command(looped, callee) };
                    let i = self.condition(command);
                    out.push(i);
                }
                19..=21 if depth < 4 => {
                    out.push(Instruction::Loop { delay: 0, count: 1 + self.below(4) as u16 });
                    self.body(out, depth + 1, true, callee);
                    out.push(Instruction::End);
                }
                22..=25 if depth < 4 => {
                    let i = self.condition(Command::ThenDo);
                    out.push(i);
                    self.body(out, depth + 1, looped, callee);
                    if self.below(2) == 0 {
                        out.push(Instruction::Else);
                        self.body(out, depth + 1, looped, callee);
                    }
                    out.push(Instruction::End);
                }
                _ => out.push(Instruction::Increment { to }),
            }
        }
    }
}
