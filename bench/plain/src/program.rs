//! The record: what a keyed text says, in fixed arrays.

/// Entries a table has room for.
pub const ENTRIES: usize = 99;
/// Entries of all three tables.
pub const SLOTS: usize = 3 * ENTRIES;

#[derive(Clone, Copy, Debug, PartialEq)]
pub struct Location {
    pub number: u16,
    pub indexed: bool,
}

#[derive(Clone, Copy, Debug, PartialEq)]
pub struct Scale {
    pub multiplier: f32,
    pub offset: f32,
}

#[derive(Clone, Copy, Debug, PartialEq, Eq)]
pub enum Relation {
    Equal,
    NotEqual,
    AtLeast,
    Less,
}

impl Relation {
    #[inline]
    pub fn holds(self, x: f32, y: f32) -> bool {
        match self {
            Relation::Equal => x == y,
            Relation::NotEqual => x != y,
            Relation::AtLeast => x >= y,
            Relation::Less => x < y,
        }
    }
}

#[derive(Clone, Copy, Debug, PartialEq, Eq)]
pub enum Command {
    ToEnd,
    Call(u8),
    Raise(u8),
    Lower(u8),
    ThenDo,
    ExitIfTrue,
    ExitIfFalse,
    PortHigh(u8),
    PortLow(u8),
}

#[derive(Clone, Copy, Debug, PartialEq, Eq)]
pub enum Statistic {
    Average,
    Total,
    Maximum,
    Minimum,
}

#[derive(Clone, Copy, Debug, PartialEq, Eq)]
pub enum Clock {
    Time,
    Day,
    DayAndTime,
}

/// One entry. Channels run through the cards: single-ended 1 to 196, differential 1 to 98.
#[derive(Clone, Copy, Debug, PartialEq)]
pub enum Instruction {
    Single { reps: u8, range: u8, channel: u8, to: Location, scale: Scale },
    Differential { reps: u8, range: u8, channel: u8, to: Location, scale: Scale },
    Fix { value: f32, to: Location },
    Move { x: Location, to: Location },
    Increment { to: Location },
    Add { x: Location, y: Location, to: Location },
    AddFixed { x: Location, value: f32, to: Location },
    Subtract { x: Location, y: Location, to: Location },
    Multiply { x: Location, y: Location, to: Location },
    MultiplyFixed { x: Location, value: f32, to: Location },
    Divide { x: Location, y: Location, to: Location },
    Sample { reps: u8, from: Location },
    Statistic { kind: Statistic, reps: u8, from: Location },
    Clock(Clock),
    Subroutine(u8),
    Do(Command),
    Loop { delay: u16, count: u16 },
    IfLocation { x: Location, relation: Relation, y: Location, command: Command },
    IfFixed { x: Location, relation: Relation, value: f32, command: Command },
    IfFlag { flag: u8, high: bool, command: Command },
    IfTime { into: u16, interval: u16, command: Command },
    Else,
    End,
}

#[derive(Clone, Debug, PartialEq)]
pub struct Program {
    pub locations: u16,
    pub sums: u16,
    /// Tables 1 and 2, in eightieths of a second.
    pub intervals: [u32; 2],
    pub lengths: [u8; 3],
    pub entries: [[Instruction; ENTRIES]; 3],
}

impl Program {
    pub const fn empty() -> Program {
        Program { locations: 0, sums: 0, intervals: [0; 2], lengths: [0; 3], entries: [[Instruction::End; ENTRIES]; 3] }
    }
}

/// Subroutine numbers there are: 1 to 9 and 79 to 99.
pub(crate) const SUBROUTINES: usize = 30;

pub(crate) const fn is_subroutine(n: u8) -> bool {
    matches!(n, 1..=9 | 79..=99)
}

/// Subroutine n's place among the 30; n is a subroutine number.
pub(crate) const fn subroutine_slot(n: u8) -> usize {
    if n < 10 {
        n as usize - 1
    } else {
        n as usize - 70
    }
}
