//! The library of `include/yukeira.h`, which says what each call does and what its answers mean. A slice takes the
//! place of a pointer and a length.

/// Numbers and values of a record's buffers, and numbers of a state's and a cursor's.
pub const RECORD_NUMBERS: usize = 2_385;
pub const RECORD_VALUES: usize = 594;
pub const STATE_NUMBERS: usize = 25;
pub const CURSOR_NUMBERS: usize = 3;
/// Readings and sample counts that a scan is lent.
pub const READINGS: usize = 196;
pub const COUNTS: usize = 297;
/// Words of the longest ring, and bytes of the longest text.
pub const LONGEST_RING: usize = 32_768;
pub const LONGEST_TEXT: usize = 16_384;

mod library {
    extern "C" {
        pub fn yukeira_check_text(
            text: *const u8,
            text_len: usize,
            numbers: *mut u16,
            numbers_len: usize,
            values: *mut f32,
            values_len: usize,
            table: *mut u8,
            entry: *mut u8,
            first: *mut u32,
            second: *mut u32,
        ) -> u8;
        pub fn yukeira_check_record(
            numbers: *const u16,
            numbers_len: usize,
            values: *const f32,
            values_len: usize,
            table: *mut u8,
            entry: *mut u8,
            first: *mut u32,
            second: *mut u32,
        ) -> u8;
        pub fn yukeira_fresh(state: *mut u16, state_len: usize) -> u8;
        pub fn yukeira_scan(
            numbers: *const u16,
            numbers_len: usize,
            values: *const f32,
            values_len: usize,
            table: u8,
            day: u32,
            time: u32,
            state: *mut u16,
            state_len: usize,
            readings: *const f32,
            readings_len: usize,
            locations: *mut f32,
            locations_len: usize,
            sums: *mut f32,
            sums_len: usize,
            counts: *mut u32,
            counts_len: usize,
            ring: *mut u16,
            ring_len: usize,
        ) -> u8;
        pub fn yukeira_key_location(
            numbers: *const u16,
            numbers_len: usize,
            values: *const f32,
            values_len: usize,
            n: u32,
            v: f32,
            locations: *mut f32,
            locations_len: usize,
        ) -> u8;
        pub fn yukeira_key_flag(
            numbers: *const u16,
            numbers_len: usize,
            values: *const f32,
            values_len: usize,
            f: u8,
            state: *mut u16,
            state_len: usize,
        ) -> u8;
        pub fn yukeira_list(
            state: *const u16,
            state_len: usize,
            ring: *const u16,
            ring_len: usize,
            k: usize,
            j: usize,
            number: *mut u16,
            places: *mut u8,
            negative: *mut u8,
        ) -> u8;
        pub fn yukeira_next(
            state: *const u16,
            state_len: usize,
            ring: *const u16,
            ring_len: usize,
            cursor: *mut u16,
            cursor_len: usize,
            values: *mut u16,
            values_len: usize,
            id: *mut u16,
            count: *mut usize,
        ) -> u8;
    }
}

// Each call touches only what its slices and references lend, whatever they hold; so none of these is unsafe to call.

pub fn check_text(
    text: &[u8],
    numbers: &mut [u16],
    values: &mut [f32],
    table: &mut u8,
    entry: &mut u8,
    first: &mut u32,
    second: &mut u32,
) -> u8 {
    unsafe {
        library::yukeira_check_text(
            text.as_ptr(),
            text.len(),
            numbers.as_mut_ptr(),
            numbers.len(),
            values.as_mut_ptr(),
            values.len(),
            table,
            entry,
            first,
            second,
        )
    }
}

pub fn check_record(
    numbers: &[u16],
    values: &[f32],
    table: &mut u8,
    entry: &mut u8,
    first: &mut u32,
    second: &mut u32,
) -> u8 {
    unsafe {
        library::yukeira_check_record(
            numbers.as_ptr(),
            numbers.len(),
            values.as_ptr(),
            values.len(),
            table,
            entry,
            first,
            second,
        )
    }
}

pub fn fresh(state: &mut [u16]) -> u8 {
    unsafe { library::yukeira_fresh(state.as_mut_ptr(), state.len()) }
}

#[allow(clippy::too_many_arguments)]
pub fn scan(
    numbers: &[u16],
    values: &[f32],
    table: u8,
    day: u32,
    time: u32,
    state: &mut [u16],
    readings: &[f32],
    locations: &mut [f32],
    sums: &mut [f32],
    counts: &mut [u32],
    ring: &mut [u16],
) -> u8 {
    unsafe {
        library::yukeira_scan(
            numbers.as_ptr(),
            numbers.len(),
            values.as_ptr(),
            values.len(),
            table,
            day,
            time,
            state.as_mut_ptr(),
            state.len(),
            readings.as_ptr(),
            readings.len(),
            locations.as_mut_ptr(),
            locations.len(),
            sums.as_mut_ptr(),
            sums.len(),
            counts.as_mut_ptr(),
            counts.len(),
            ring.as_mut_ptr(),
            ring.len(),
        )
    }
}

pub fn key_location(numbers: &[u16], values: &[f32], n: u32, v: f32, locations: &mut [f32]) -> u8 {
    unsafe {
        library::yukeira_key_location(
            numbers.as_ptr(),
            numbers.len(),
            values.as_ptr(),
            values.len(),
            n,
            v,
            locations.as_mut_ptr(),
            locations.len(),
        )
    }
}

pub fn key_flag(numbers: &[u16], values: &[f32], f: u8, state: &mut [u16]) -> u8 {
    unsafe {
        library::yukeira_key_flag(
            numbers.as_ptr(),
            numbers.len(),
            values.as_ptr(),
            values.len(),
            f,
            state.as_mut_ptr(),
            state.len(),
        )
    }
}

pub fn list(
    state: &[u16],
    ring: &[u16],
    k: usize,
    j: usize,
    number: &mut u16,
    places: &mut u8,
    negative: &mut u8,
) -> u8 {
    unsafe {
        library::yukeira_list(state.as_ptr(), state.len(), ring.as_ptr(), ring.len(), k, j, number, places, negative)
    }
}

pub fn next(
    state: &[u16],
    ring: &[u16],
    cursor: &mut [u16],
    values: &mut [u16],
    id: &mut u16,
    count: &mut usize,
) -> u8 {
    unsafe {
        library::yukeira_next(
            state.as_ptr(),
            state.len(),
            ring.as_ptr(),
            ring.len(),
            cursor.as_mut_ptr(),
            cursor.len(),
            values.as_mut_ptr(),
            values.len(),
            id,
            count,
        )
    }
}
