//! The table machine of document 01 in plain Rust: keyed text, check, scan, keying, Final Storage and its listing.
//! Standard library only; no call but `listing` (the program) allocates.

pub mod calls;
mod check;
mod layout;
mod plan;
mod program;
mod ranges;
mod run;
mod scan;
mod storage;
mod text;
mod verdict;

pub use check::check_record;
pub use layout::{
    read_record, read_state, write_record, write_state, CursorNumbers, Numbers, StateNumbers, Values, CURSOR_NUMBERS,
    RECORD_NUMBERS, RECORD_VALUES, STATE_NUMBERS,
};
pub use program::{Clock, Command, Instruction, Location, Program, Relation, Scale, Statistic, ENTRIES, SLOTS};
pub use scan::{key_flag, key_location, scan, State};
pub use storage::{arrays, list, next, value_of, value_word, Array, Arrays, Cursor, Listed, Next, Value};
pub use text::{check_text, fixed, items, read_text, whole, LONGEST_TEXT};
pub use verdict::Verdict;
