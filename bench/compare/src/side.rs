//! One side of the comparison: everything that is lent to its calls, and the calls.

use crate::lent::Lent;
use std::fmt::Write;

/// The numbers that a call writes beside its buffers.
#[derive(Clone, Copy, Debug, Default, PartialEq)]
pub struct Told {
    pub table: u8,
    pub entry: u8,
    pub first: u32,
    pub second: u32,
    pub number: u16,
    pub places: u8,
    pub negative: u8,
    pub id: u16,
    pub count: usize,
}

pub struct Side {
    pub text: Lent<u8>,
    pub numbers: Lent<u16>,
    pub values: Lent<f32>,
    pub state: Lent<u16>,
    pub readings: Lent<f32>,
    pub locations: Lent<f32>,
    pub sums: Lent<f32>,
    pub counts: Lent<u32>,
    pub ring: Lent<u16>,
    pub cursor: Lent<u16>,
    /// Where a listing by the cursor puts an array's values.
    pub listed: Lent<u16>,
    pub told: Told,
}

macro_rules! each_buffer {
    ($do:ident) => {
        $do!(text numbers values state readings locations sums counts ring cursor listed)
    };
}

impl Side {
    pub fn new() -> Side {
        Side {
            text: Lent::new(&[]),
            numbers: Lent::new(&[0; yukeira::RECORD_NUMBERS]),
            values: Lent::new(&[0.0; yukeira::RECORD_VALUES]),
            state: Lent::new(&[0; yukeira::STATE_NUMBERS]),
            readings: Lent::new(&[0.0; yukeira::READINGS]),
            locations: Lent::new(&[]),
            sums: Lent::new(&[]),
            counts: Lent::new(&[0; yukeira::COUNTS]),
            ring: Lent::new(&[]),
            cursor: Lent::new(&[0; yukeira::CURSOR_NUMBERS]),
            listed: Lent::new(&[]),
            told: Told::default(),
        }
    }

    pub fn take(&mut self, other: &Side) {
        macro_rules! take {
            ($($buffer:ident)*) => { $(self.$buffer.take(&other.$buffer);)* };
        }
        each_buffer!(take);
        self.told = other.told;
    }

    pub fn same(&self, other: &Side) -> bool {
        macro_rules! same {
            ($($buffer:ident)*) => { self.told == other.told $(&& self.$buffer.same(&other.$buffer))* };
        }
        each_buffer!(same)
    }

    pub fn show(&self) -> String {
        let mut out = String::new();
        macro_rules! show {
            ($($buffer:ident)*) => { $(self.$buffer.show(stringify!($buffer), &mut out);)* };
        }
        writeln!(out, "  text, {}: \"{}\"", self.text.len(), self.text.escape_ascii()).unwrap();
        show!(numbers values state readings locations sums counts ring cursor listed);
        writeln!(out, "  {:?}", self.told).unwrap();
        out
    }

    pub fn show_difference(&self, plain: &Side) -> String {
        let mut out = String::new();
        macro_rules! show {
            ($($buffer:ident)*) => {
                $(self.$buffer.show_difference(stringify!($buffer), &plain.$buffer, &mut out);)*
            };
        }
        each_buffer!(show);
        if self.told != plain.told {
            writeln!(out, "  proved {:?}\n  plain {:?}", self.told, plain.told).unwrap();
        }
        out
    }
}

#[derive(Clone, Copy, Debug)]
pub enum Call {
    CheckText,
    CheckRecord,
    Fresh,
    Scan { table: u8, day: u32, time: u32 },
    KeyLocation { n: u32, bits: u32 },
    KeyFlag { f: u8 },
    List { k: usize, j: usize },
    Next,
}

impl Call {
    pub fn name(&self) -> &'static str {
        match self {
            Call::CheckText => "check text",
            Call::CheckRecord => "check record",
            Call::Fresh => "fresh",
            Call::Scan { .. } => "scan",
            Call::KeyLocation { .. } => "key location",
            Call::KeyFlag { .. } => "key flag",
            Call::List { .. } => "list",
            Call::Next => "next",
        }
    }
}

/// The same call by either library.
macro_rules! calls_of {
    ($name:ident, $library:path) => {
        pub fn $name(s: &mut Side, call: Call) -> u8 {
            use $library as library;
            let t = &mut s.told;
            match call {
                Call::CheckText => library::check_text(
                    &s.text,
                    &mut s.numbers,
                    &mut s.values,
                    &mut t.table,
                    &mut t.entry,
                    &mut t.first,
                    &mut t.second,
                ),
                Call::CheckRecord => library::check_record(
                    &s.numbers,
                    &s.values,
                    &mut t.table,
                    &mut t.entry,
                    &mut t.first,
                    &mut t.second,
                ),
                Call::Fresh => library::fresh(&mut s.state),
                Call::Scan { table, day, time } => library::scan(
                    &s.numbers,
                    &s.values,
                    table,
                    day,
                    time,
                    &mut s.state,
                    &s.readings,
                    &mut s.locations,
                    &mut s.sums,
                    &mut s.counts,
                    &mut s.ring,
                ),
                Call::KeyLocation { n, bits } => {
                    library::key_location(&s.numbers, &s.values, n, f32::from_bits(bits), &mut s.locations)
                }
                Call::KeyFlag { f } => library::key_flag(&s.numbers, &s.values, f, &mut s.state),
                Call::List { k, j } => {
                    library::list(&s.state, &s.ring, k, j, &mut t.number, &mut t.places, &mut t.negative)
                }
                Call::Next => library::next(&s.state, &s.ring, &mut s.cursor, &mut s.listed, &mut t.id, &mut t.count),
            }
        }
    };
}

calls_of!(by_proved, yukeira);
calls_of!(by_plain, plain::calls);
