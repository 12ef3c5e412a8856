//! The ranges of a record's own numbers: faults 2 and 5.

use crate::program::*;

/// Is V allowed for table t (0 or 1)?
pub(crate) fn interval_allowed(t: usize, v: u32) -> bool {
    v <= 524_240 && (v.is_multiple_of(8) || t == 0 && v < 8)
}

fn command_allowed(command: Command) -> bool {
    match command {
        Command::Call(n) => is_subroutine(n),
        Command::Raise(f) | Command::Lower(f) => f <= 9,
        Command::PortHigh(n) | Command::PortLow(n) => (1..=8).contains(&n),
        Command::ToEnd | Command::ThenDo | Command::ExitIfTrue | Command::ExitIfFalse => true,
    }
}

fn reps_allowed(reps: u8) -> bool {
    (1..=99).contains(&reps)
}

fn measurement_allowed(reps: u8, range: u8, channel: u8, channels: u8, scale: Scale) -> bool {
    reps_allowed(reps)
        && (1..=18).contains(&range)
        && (1..=channels).contains(&channel)
        && scale.multiplier.is_finite()
        && scale.offset.is_finite()
}

/// Fault 2: are an entry's own numbers in their ranges?
#[inline]
pub(crate) fn entry_allowed(i: &Instruction) -> bool {
    match *i {
        Instruction::Single { reps, range, channel, scale, .. } => {
            measurement_allowed(reps, range, channel, 196, scale)
        }
        Instruction::Differential { reps, range, channel, scale, .. } => {
            measurement_allowed(reps, range, channel, 98, scale)
        }
        Instruction::Fix { value, .. }
        | Instruction::AddFixed { value, .. }
        | Instruction::MultiplyFixed { value, .. } => value.is_finite(),
        Instruction::Sample { reps, .. } | Instruction::Statistic { reps, .. } => reps_allowed(reps),
        Instruction::Subroutine(n) => is_subroutine(n),
        Instruction::Do(command) => {
            !matches!(command, Command::ThenDo | Command::ExitIfFalse) && command_allowed(command)
        }
        Instruction::Loop { delay, count } => delay == 0 && (1..=9_999).contains(&count),
        Instruction::IfLocation { command, .. } => command_allowed(command),
        Instruction::IfFixed { value, command, .. } => value.is_finite() && command_allowed(command),
        Instruction::IfFlag { flag, command, .. } => flag <= 9 && command_allowed(command),
        Instruction::IfTime { into, interval, command } => {
            into <= 1_439 && (1..=1_440).contains(&interval) && command_allowed(command)
        }
        Instruction::Move { .. }
        | Instruction::Increment { .. }
        | Instruction::Add { .. }
        | Instruction::Subtract { .. }
        | Instruction::Multiply { .. }
        | Instruction::Divide { .. }
        | Instruction::Clock(_)
        | Instruction::Else
        | Instruction::End => true,
    }
}
