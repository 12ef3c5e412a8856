//! The listing by a cursor against its words: rings, states and cursors at random.

use plain::*;
use random::Random;

/// The whole arrays among the words, oldest first, that are shown: the start and the end of each.
fn shown_arrays(words: &[u16]) -> Vec<(usize, usize)> {
    let array = |start: usize| {
        let end = (start + 1..words.len()).find(|&n| words[n] >= 64_512).unwrap_or(words.len());
        let shown = words[start] >= 64_512 && words[start + 1..end].iter().all(|&w| value_of(w).is_some());
        shown.then_some((start, end))
    };
    (0..words.len()).filter_map(array).collect()
}

fn by_the_words(state: &State, ring: &[u16], cursor: &mut Cursor, values: &mut [u16]) -> Next {
    let (position, filled) = (usize::from(state.position), usize::from(state.filled));
    if values.len() != ring.len() || ring.is_empty() || ring.len() > 32_768 {
        return Next::Refused(31);
    }
    if position >= ring.len() || filled > ring.len() {
        return Next::Refused(32);
    }
    if cursor.from != 0 && (cursor.position != state.position || cursor.filled != state.filled) {
        return Next::MovedOn;
    }
    let words: Vec<u16> = (0..filled).map(|n| ring[(position + ring.len() - filled + n) % ring.len()]).collect();
    let shown = shown_arrays(&words);
    let from = usize::from(cursor.from);
    if from != 0 && !shown.iter().any(|&(start, end)| start == from || end == from) {
        return Next::MovedOn;
    }
    let Some(&(start, end)) = shown.iter().find(|&&(start, _)| start >= from) else {
        return Next::None;
    };
    for (value, &word) in values.iter_mut().zip(&words[start + 1..end]) {
        *value = word;
    }
    *cursor = Cursor { from: end as u16, position: state.position, filled: state.filled };
    Next::Array { id: words[start] - 64_512, count: end - start - 1 }
}

fn any_ring(r: &mut Random, length: usize) -> Vec<u16> {
    let starts = r.one_of(&[2, 5, 20]);
    let word = |r: &mut Random| match r.below(40) {
        0 => r.bits() as u16,
        _ if r.once_in(starts) => 64_512 + r.below(400) as u16,
        _ => value_word(r.below(8_000) as f32 - 1_000.0),
    };
    (0..length).map(|_| word(r)).collect()
}

#[test]
fn any_cursor() {
    let mut r = Random::new(1);
    let mut seen = [0; 5];
    for _ in 0..30_000 {
        let length = r.below(24) as usize;
        let ring = any_ring(&mut r, length);
        let filled = if r.once_in(2) { length as u64 } else { r.below(length as u64 + 2) };
        let state = State { position: r.below(length as u64 + 1) as u16, filled: filled as u16, ..State::fresh() };
        let mut ours = Cursor { from: r.below(26) as u16, position: r.below(24) as u16, filled: r.below(24) as u16 };
        if !r.once_in(4) {
            (ours.position, ours.filled) = (state.position, state.filled);
        }
        let lent = if r.once_in(10) { length + 1 } else { length };
        let mut values: Vec<u16> = (0..lent).map(|_| r.bits() as u16).collect();
        let (mut theirs, mut others) = (ours, values.clone());
        let answer = next(&state, &ring, &mut ours, &mut values);
        assert_eq!(answer, by_the_words(&state, &ring, &mut theirs, &mut others));
        assert_eq!((ours, values), (theirs, others));
        seen[match answer {
            Next::Refused(31) => 0,
            Next::Refused(_) => 1,
            Next::MovedOn => 2,
            Next::Array { .. } => 3,
            Next::None => 4,
        }] += 1;
    }
    assert!(seen.iter().all(|&n| n > 500), "{seen:?}");
}
