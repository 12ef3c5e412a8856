//! The record and the state in the buffers of `include/yukeira.h`.

use crate::program::*;
use crate::scan::State;

const HEAD: usize = 9;
const SLOT_NUMBERS: usize = 8;
const SLOT_VALUES: usize = 2;
pub const RECORD_NUMBERS: usize = HEAD + SLOT_NUMBERS * SLOTS;
pub const RECORD_VALUES: usize = SLOT_VALUES * SLOTS;
pub const STATE_NUMBERS: usize = 25;
pub const CURSOR_NUMBERS: usize = 3;

pub type Numbers = [u16; RECORD_NUMBERS];
pub type Values = [f32; RECORD_VALUES];
pub type StateNumbers = [u16; STATE_NUMBERS];
pub type CursorNumbers = [u16; CURSOR_NUMBERS];

/// What a slot is read as that says no instruction: the check faults it by 2.
const NO_INSTRUCTION: Instruction = Instruction::Subroutine(0);

/// A number of a field of 8 bits; no range allows 255.
#[inline]
fn small(n: u16) -> u8 {
    n.min(255) as u8
}

#[inline]
fn location(a: &[u16; SLOT_NUMBERS], at: usize) -> Location {
    Location { number: a[at], indexed: a[at + 1] != 0 }
}

fn relation(n: u16) -> Option<Relation> {
    Some(match n {
        1 => Relation::Equal,
        2 => Relation::NotEqual,
        3 => Relation::AtLeast,
        4 => Relation::Less,
        _ => return None,
    })
}

fn relation_number(relation: Relation) -> u16 {
    match relation {
        Relation::Equal => 1,
        Relation::NotEqual => 2,
        Relation::AtLeast => 3,
        Relation::Less => 4,
    }
}

fn command(n: u16) -> Option<Command> {
    let argument = (n % 256) as u8;
    Some(match n / 256 {
        0 => Command::ToEnd,
        1 => Command::Call(argument),
        2 => Command::Raise(argument),
        3 => Command::Lower(argument),
        4 => Command::ThenDo,
        5 => Command::ExitIfTrue,
        6 => Command::ExitIfFalse,
        7 => Command::PortHigh(argument),
        8 => Command::PortLow(argument),
        _ => return None,
    })
}

fn command_number(command: Command) -> u16 {
    let (kind, argument) = match command {
        Command::ToEnd => (0, 0),
        Command::Call(n) => (1, n),
        Command::Raise(f) => (2, f),
        Command::Lower(f) => (3, f),
        Command::ThenDo => (4, 0),
        Command::ExitIfTrue => (5, 0),
        Command::ExitIfFalse => (6, 0),
        Command::PortHigh(n) => (7, n),
        Command::PortLow(n) => (8, n),
    };
    256 * kind + u16::from(argument)
}

fn clock(n: u16) -> Option<Clock> {
    Some(match n {
        10 => Clock::Time,
        100 => Clock::Day,
        110 => Clock::DayAndTime,
        _ => return None,
    })
}

fn clock_number(clock: Clock) -> u16 {
    match clock {
        Clock::Time => 10,
        Clock::Day => 100,
        Clock::DayAndTime => 110,
    }
}

fn statistic(n: u16) -> Statistic {
    match n {
        71 => Statistic::Average,
        72 => Statistic::Total,
        73 => Statistic::Maximum,
        _ => Statistic::Minimum,
    }
}

fn statistic_number(kind: Statistic) -> u16 {
    match kind {
        Statistic::Average => 71,
        Statistic::Total => 72,
        Statistic::Maximum => 73,
        Statistic::Minimum => 74,
    }
}

/// Is there an instruction of this number?
pub(crate) fn is_instruction(n: u16) -> bool {
    matches!(n, 1 | 2 | 30..=38 | 70..=74 | 77 | 85..=89 | 91 | 92 | 94 | 95)
}

/// The number in the slot of an entry (1 to 99) of a table (1 to 3).
pub(crate) fn slot_number(numbers: &Numbers, table: usize, entry: usize) -> u16 {
    numbers[HEAD + SLOT_NUMBERS * (ENTRIES * (table - 1) + entry - 1)]
}

/// The instruction of a slot, or `None` where it says none.
#[inline]
fn instruction(a: &[u16; SLOT_NUMBERS], v: &[f32; SLOT_VALUES]) -> Option<Instruction> {
    let (first, second, third) = (|| location(a, 1), || location(a, 3), || location(a, 5));
    Some(match a[0] {
        1 | 2 => {
            let (reps, range, channel, to) = (small(a[1]), small(a[2]), small(a[3]), location(a, 4));
            let scale = Scale { multiplier: v[0], offset: v[1] };
            if a[0] == 1 {
                Instruction::Single { reps, range, channel, to, scale }
            } else {
                Instruction::Differential { reps, range, channel, to, scale }
            }
        }
        30 => Instruction::Fix { value: v[0], to: first() },
        31 => Instruction::Move { x: first(), to: second() },
        32 => Instruction::Increment { to: first() },
        33 => Instruction::Add { x: first(), y: second(), to: third() },
        34 => Instruction::AddFixed { x: first(), value: v[0], to: second() },
        35 => Instruction::Subtract { x: first(), y: second(), to: third() },
        36 => Instruction::Multiply { x: first(), y: second(), to: third() },
        37 => Instruction::MultiplyFixed { x: first(), value: v[0], to: second() },
        38 => Instruction::Divide { x: first(), y: second(), to: third() },
        70 => Instruction::Sample { reps: small(a[1]), from: location(a, 2) },
        71..=74 => Instruction::Statistic { kind: statistic(a[0]), reps: small(a[1]), from: location(a, 2) },
        77 => Instruction::Clock(clock(a[1])?),
        85 => Instruction::Subroutine(small(a[1])),
        86 => Instruction::Do(command(a[1])?),
        87 => Instruction::Loop { delay: a[1], count: a[2] },
        88 => Instruction::IfLocation {
            x: first(),
            relation: relation(a[3])?,
            y: location(a, 4),
            command: command(a[6])?,
        },
        89 => Instruction::IfFixed { x: first(), relation: relation(a[3])?, value: v[0], command: command(a[4])? },
        91 => Instruction::IfFlag { flag: small(a[1]), high: a[2] != 0, command: command(a[3])? },
        92 => Instruction::IfTime { into: a[1], interval: a[2], command: command(a[3])? },
        94 => Instruction::Else,
        95 => Instruction::End,
        _ => return None,
    })
}

/// A slot as it is written, number by number.
struct Slot {
    numbers: [u16; SLOT_NUMBERS],
    used: usize,
    values: [f32; SLOT_VALUES],
}

impl Slot {
    fn new(instruction: u16) -> Slot {
        let mut slot = Slot { numbers: [0; SLOT_NUMBERS], used: 0, values: [0.0; SLOT_VALUES] };
        slot.number(instruction);
        slot
    }

    fn number(&mut self, n: u16) -> &mut Slot {
        self.numbers[self.used] = n;
        self.used += 1;
        self
    }

    fn location(&mut self, l: Location) -> &mut Slot {
        self.number(l.number).number(u16::from(l.indexed))
    }

    fn command(&mut self, command: Command) {
        self.number(command_number(command));
    }

    fn measurement(&mut self, reps: u8, range: u8, channel: u8, to: Location, scale: Scale) {
        self.number(reps.into()).number(range.into()).number(channel.into()).location(to);
        self.values = [scale.multiplier, scale.offset];
    }

    fn three(&mut self, x: Location, y: Location, to: Location) {
        self.location(x).location(y).location(to);
    }

    fn with_value(&mut self, value: f32) -> &mut Slot {
        self.values[0] = value;
        self
    }
}

fn instruction_number(i: &Instruction) -> u16 {
    match *i {
        Instruction::Single { .. } => 1,
        Instruction::Differential { .. } => 2,
        Instruction::Fix { .. } => 30,
        Instruction::Move { .. } => 31,
        Instruction::Increment { .. } => 32,
        Instruction::Add { .. } => 33,
        Instruction::AddFixed { .. } => 34,
        Instruction::Subtract { .. } => 35,
        Instruction::Multiply { .. } => 36,
        Instruction::MultiplyFixed { .. } => 37,
        Instruction::Divide { .. } => 38,
        Instruction::Sample { .. } => 70,
        Instruction::Statistic { kind, .. } => statistic_number(kind),
        Instruction::Clock(_) => 77,
        Instruction::Subroutine(_) => 85,
        Instruction::Do(_) => 86,
        Instruction::Loop { .. } => 87,
        Instruction::IfLocation { .. } => 88,
        Instruction::IfFixed { .. } => 89,
        Instruction::IfFlag { .. } => 91,
        Instruction::IfTime { .. } => 92,
        Instruction::Else => 94,
        Instruction::End => 95,
    }
}

fn slot(i: &Instruction) -> Slot {
    let mut slot = Slot::new(instruction_number(i));
    match *i {
        Instruction::Single { reps, range, channel, to, scale }
        | Instruction::Differential { reps, range, channel, to, scale } => {
            slot.measurement(reps, range, channel, to, scale);
        }
        Instruction::Fix { value, to } => {
            slot.with_value(value).location(to);
        }
        Instruction::Increment { to } => {
            slot.location(to);
        }
        Instruction::Move { x, to } => {
            slot.location(x).location(to);
        }
        Instruction::AddFixed { x, value, to } | Instruction::MultiplyFixed { x, value, to } => {
            slot.with_value(value).location(x).location(to);
        }
        Instruction::Add { x, y, to }
        | Instruction::Subtract { x, y, to }
        | Instruction::Multiply { x, y, to }
        | Instruction::Divide { x, y, to } => slot.three(x, y, to),
        Instruction::Sample { reps, from } | Instruction::Statistic { reps, from, .. } => {
            slot.number(reps.into()).location(from);
        }
        Instruction::Clock(clock) => {
            slot.number(clock_number(clock));
        }
        Instruction::Subroutine(n) => {
            slot.number(n.into());
        }
        Instruction::Do(command) => slot.command(command),
        Instruction::Loop { delay, count } => {
            slot.number(delay).number(count);
        }
        Instruction::IfLocation { x, relation, y, command } => {
            slot.location(x).number(relation_number(relation)).location(y).command(command)
        }
        Instruction::IfFixed { x, relation, value, command } => {
            slot.with_value(value).location(x).number(relation_number(relation)).command(command)
        }
        Instruction::IfFlag { flag, high, command } => slot.number(flag.into()).number(high.into()).command(command),
        Instruction::IfTime { into, interval, command } => slot.number(into).number(interval).command(command),
        Instruction::Else | Instruction::End => {}
    }
    slot
}

/// The record in the buffers. The slots behind a table's last entry are not looked at.
pub fn read_record(numbers: &Numbers, values: &Values) -> Program {
    let mut p = Program::empty();
    p.locations = numbers[0];
    p.sums = numbers[1];
    for t in 0..2 {
        p.intervals[t] = u32::from(numbers[2 + 2 * t]) + 65_536 * u32::from(numbers[3 + 2 * t]);
    }
    let (slots, _) = numbers[HEAD..].as_chunks::<SLOT_NUMBERS>();
    let (pairs, _) = values.as_chunks::<SLOT_VALUES>();
    for t in 0..3 {
        p.lengths[t] = small(numbers[6 + t]);
        let used = ENTRIES.min(p.lengths[t].into());
        let from = t * ENTRIES;
        let lent = slots[from..from + used].iter().zip(&pairs[from..from + used]);
        for (entry, (a, v)) in p.entries[t].iter_mut().zip(lent) {
            *entry = instruction(a, v).unwrap_or(NO_INSTRUCTION);
        }
    }
    p
}

/// All of both buffers.
pub fn write_record(p: &Program, numbers: &mut Numbers, values: &mut Values) {
    numbers[0] = p.locations;
    numbers[1] = p.sums;
    for t in 0..2 {
        numbers[2 + 2 * t] = (p.intervals[t] % 65_536) as u16;
        numbers[3 + 2 * t] = (p.intervals[t] / 65_536) as u16;
    }
    for t in 0..3 {
        numbers[6 + t] = p.lengths[t].into();
    }
    let (slots, _) = numbers[HEAD..].as_chunks_mut::<SLOT_NUMBERS>();
    let (pairs, _) = values.as_chunks_mut::<SLOT_VALUES>();
    for (i, (a, v)) in p.entries.as_flattened().iter().zip(slots.iter_mut().zip(pairs)) {
        let slot = slot(i);
        *a = slot.numbers;
        *v = slot.values;
    }
}

pub fn read_state(a: &StateNumbers) -> State {
    State {
        flags: std::array::from_fn(|f| a[f] != 0),
        ports: std::array::from_fn(|n| a[10 + n] != 0),
        position: a[18],
        filled: a[19],
        array: a[20],
        days: [a[21], a[22]],
        minutes: [a[23], a[24]],
    }
}

pub fn write_state(state: &State, a: &mut StateNumbers) {
    for (n, &flag) in a[..10].iter_mut().zip(&state.flags) {
        *n = flag.into();
    }
    for (n, &port) in a[10..18].iter_mut().zip(&state.ports) {
        *n = port.into();
    }
    let [first_day, second_day] = state.days;
    let [first_minute, second_minute] = state.minutes;
    a[18..].copy_from_slice(&[
        state.position,
        state.filled,
        state.array,
        first_day,
        second_day,
        first_minute,
        second_minute,
    ]);
}
