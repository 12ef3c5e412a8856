//! Final Storage: value words, writing to the ring, and the listing.

use crate::scan::State;

pub(crate) const START: u16 = 64_512;
pub(crate) const LONGEST_RING: usize = 32_768;
const NEGATIVE: u16 = 32_768;
const PLACE: u16 = 8_192;
const MOST_DIGITS: u16 = 6_999;

/// The value word of a finite number. A binary32 times 1,000 is exact in binary64, and so is the half added to it
/// wherever that matters.
#[inline]
pub fn value_word(v: f32) -> u16 {
    let a = v.abs() as f64;
    let limit = MOST_DIGITS as f64 + 0.5;
    let (places, scaled) = if a * 1_000.0 < limit {
        (3, a * 1_000.0)
    } else if a * 100.0 < limit {
        (2, a * 100.0)
    } else if a * 10.0 < limit {
        (1, a * 10.0)
    } else {
        (0, a.min(MOST_DIGITS as f64))
    };
    let digits = (scaled + 0.5) as u16;
    let sign = if v < 0.0 && digits != 0 { NEGATIVE } else { 0 };
    sign + places * PLACE + digits
}

/// The ring while a scan writes to it.
pub(crate) struct Writer<'a> {
    pub ring: &'a mut [u16],
    pub position: usize,
    pub filled: usize,
    /// The array id last raised, and whether its start word is still to be written.
    pub array: u16,
    pub waiting: bool,
}

impl Writer<'_> {
    #[inline]
    fn word(&mut self, word: u16) {
        self.ring[self.position] = word;
        self.position += 1;
        if self.position == self.ring.len() {
            self.position = 0;
        }
        if self.filled < self.ring.len() {
            self.filled += 1;
        }
    }

    #[inline]
    pub fn value(&mut self, v: f32) {
        if self.waiting {
            self.waiting = false;
            self.word(START + self.array);
        }
        self.word(value_word(v));
    }
}

#[derive(Clone, Copy, Debug, PartialEq, Eq)]
pub struct Value {
    pub negative: bool,
    pub places: u8,
    pub digits: u16,
}

/// The value of a word, or `None` for a word no value has.
#[inline]
pub fn value_of(word: u16) -> Option<Value> {
    let value = Value { negative: word >= NEGATIVE, places: (word / PLACE % 4) as u8, digits: word % PLACE };
    let least = if value.places < 3 { 700 } else { value.negative as u16 };
    (least..=MOST_DIGITS).contains(&value.digits).then_some(value)
}

#[derive(Clone, Copy, Debug, PartialEq, Eq)]
pub enum Listed {
    Refused(u8),
    Id(u16),
    Value(Value),
    None,
}

/// The whole arrays of a ring, oldest first, each word looked at once.
#[derive(Clone, Copy)]
pub struct Arrays<'a> {
    /// The filled words not yet passed: those up to the ring's last word, then those from its first.
    older: &'a [u16],
    newer: &'a [u16],
}

/// One whole array; as an iterator, its values.
#[derive(Clone, Copy)]
pub struct Array<'a> {
    pub id: u16,
    older: &'a [u16],
    newer: &'a [u16],
}

/// A listing from the oldest word on, or refusal 31 or 32.
pub fn arrays<'a>(state: &State, ring: &'a [u16]) -> Result<Arrays<'a>, u8> {
    if ring.is_empty() || ring.len() > LONGEST_RING {
        return Err(31);
    }
    let position = state.position as usize;
    let filled = state.filled as usize;
    if position >= ring.len() || filled > ring.len() {
        return Err(32);
    }
    Ok(if filled <= position {
        Arrays { older: &ring[position - filled..position], newer: &[] }
    } else {
        Arrays { older: &ring[ring.len() - (filled - position)..], newer: &ring[..position] }
    })
}

/// How many words from the first on are values.
#[inline]
fn values(words: &[u16]) -> usize {
    words.iter().position(|&w| value_of(w).is_none()).unwrap_or(words.len())
}

impl<'a> Arrays<'a> {
    fn pop(&mut self) -> Option<u16> {
        if self.older.is_empty() {
            self.older = std::mem::take(&mut self.newer);
        }
        let (&word, rest) = self.older.split_first()?;
        self.older = rest;
        Some(word)
    }

    fn peek(&self) -> Option<u16> {
        self.older.first().or(self.newer.first()).copied()
    }

    /// Words not yet passed.
    fn len(&self) -> usize {
        self.older.len() + self.newer.len()
    }

    fn skip_words(&mut self, n: usize) {
        let older = n.min(self.older.len());
        let newer = (n - older).min(self.newer.len());
        self.older = &self.older[older..];
        self.newer = &self.newer[newer..];
    }

    /// A whole array ends before word n: a start word or the end of the words is there, and the last word before it
    /// that is no value is a start word.
    fn one_ends_before(&self, n: usize) -> bool {
        let older = n.min(self.older.len());
        let Some(newer) = self.newer.get(..n - older) else {
            return false;
        };
        let mut rest = Arrays { ..*self };
        rest.skip_words(n);
        let mut before = self.older[..older].iter().chain(newer).rev();
        rest.peek().is_none_or(|w| w >= START) && before.find(|&&w| value_of(w).is_none()).is_some_and(|&w| w >= START)
    }
}

impl<'a> Iterator for Arrays<'a> {
    type Item = Array<'a>;

    fn next(&mut self) -> Option<Array<'a>> {
        loop {
            let word = self.pop()?;
            if word < START {
                continue;
            }
            let n = values(self.older);
            let (older, rest) = self.older.split_at(n);
            self.older = rest;
            let mut newer: &[u16] = &[];
            if rest.is_empty() {
                let n = values(self.newer);
                (newer, self.older) = self.newer.split_at(n);
                self.newer = &[];
            }
            if self.peek().is_none_or(|w| w >= START) {
                return Some(Array { id: word - START, older, newer });
            }
        }
    }
}

impl Iterator for Array<'_> {
    type Item = Value;

    #[inline]
    fn next(&mut self) -> Option<Value> {
        if self.older.is_empty() {
            self.older = std::mem::take(&mut self.newer);
        }
        let (&word, rest) = self.older.split_first()?;
        self.older = rest;
        value_of(word)
    }
}

/// Item j of array k.
pub fn list(state: &State, ring: &[u16], k: usize, j: usize) -> Listed {
    let mut arrays = match arrays(state, ring) {
        Ok(arrays) => arrays,
        Err(number) => return Listed::Refused(number),
    };
    let Some(array) = arrays.nth(k) else {
        return Listed::None;
    };
    if j == 0 {
        return Listed::Id(array.id);
    }
    let word =
        if j <= array.older.len() { Some(&array.older[j - 1]) } else { array.newer.get(j - 1 - array.older.len()) };
    word.and_then(|&w| value_of(w)).map_or(Listed::None, Listed::Value)
}

/// Where a listing goes on: behind the `from` oldest words of a ring that had this position and filled count. All 0
/// before the first array.
#[derive(Clone, Copy, Debug, Default, PartialEq, Eq)]
pub struct Cursor {
    pub from: u16,
    pub position: u16,
    pub filled: u16,
}

#[derive(Clone, Copy, Debug, PartialEq, Eq)]
pub enum Next {
    Refused(u8),
    /// Words were stored since the cursor was given, or it stands at no array that is shown.
    MovedOn,
    Array {
        id: u16,
        count: usize,
    },
    None,
}

/// The first whole array from the cursor on, its value words in front of `values`, and the cursor moved behind it;
/// elsewhere nothing is written. Any numbers may stand in the cursor. `values` has the ring's length.
pub fn next(state: &State, ring: &[u16], cursor: &mut Cursor, values: &mut [u16]) -> Next {
    if values.len() != ring.len() {
        return Next::Refused(31);
    }
    let all = match arrays(state, ring) {
        Ok(arrays) => arrays,
        Err(number) => return Next::Refused(number),
    };
    let (position, filled) = (state.position, state.filled);
    if cursor.from != 0 && (cursor.position, cursor.filled) != (position, filled) {
        return Next::MovedOn;
    }
    let from = usize::from(cursor.from);
    let mut rest = Arrays { ..all };
    rest.skip_words(from);
    let found = rest.next();
    let begins = |a: &Array| from + 1 + a.older.len() + a.newer.len() + rest.len() == all.len();
    if from != 0 && !found.as_ref().is_some_and(begins) && !all.one_ends_before(from) {
        return Next::MovedOn;
    }
    let Some(Array { id, older, newer }) = found else {
        return Next::None;
    };
    let count = older.len() + newer.len();
    values[..older.len()].copy_from_slice(older);
    values[older.len()..count].copy_from_slice(newer);
    *cursor = Cursor { from: filled - rest.len() as u16, position, filled };
    Next::Array { id, count }
}
