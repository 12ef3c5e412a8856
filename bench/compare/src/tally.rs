//! How many answers of each kind were seen, and on what.

use crate::source::ENTRIES;
use std::collections::BTreeMap;
use std::fmt::Display;

/// The answers that each call can give.
const ANSWERS: [(&str, &[u8]); 8] = [
    ("check text", &[0, 1, 2, 3, 4, 5, 6, 10, 11, 12, 13, 14, 15, 16, 17, 18, 19, 20, 21, 22, 31]),
    ("check record", &[0, 2, 3, 5, 6, 10, 11, 12, 13, 14, 15, 16, 17, 18, 19, 20, 21, 22, 31]),
    ("fresh", &[0, 31]),
    ("scan", &[0, 30, 31, 32, 33]),
    ("key location", &[0, 30, 31, 34]),
    ("key flag", &[0, 30, 31, 34]),
    ("list", &[0, 1, 2, 31, 32]),
    ("next", &[0, 1, 3, 31, 32]),
];

/// The answers to a cursor that was kept while a scan stored words; 0 and 1 where the ring has gone round by its length.
const KEPT: [u8; 3] = [0, 1, 3];

#[derive(Default)]
pub struct Tally {
    pub total: u64,
    calls: BTreeMap<&'static str, BTreeMap<u8, u64>>,
    rings: BTreeMap<usize, u64>,
    /// Scans that changed a buffer or the state, and the words of the ring that they changed.
    pub ran: u64,
    pub words: u64,
    /// Scans that were not due, with a flag or port that is neither 0 nor 1.
    pub idle: u64,
    /// What cursors were answered that were kept while a scan stored words.
    kept: BTreeMap<u8, u64>,
    /// The entries of the records with which scans were done, by instruction.
    entries: BTreeMap<u16, u64>,
}

impl Tally {
    pub fn note(&mut self, call: &'static str, answer: u8) {
        *self.calls.entry(call).or_default().entry(answer).or_default() += 1;
        self.total += 1;
    }

    pub fn note_ring(&mut self, length: usize) {
        let rest = !matches!(length, 1 | 2 | 63 | 64 | 32_768);
        *self.rings.entry(if rest { 0 } else { length }).or_default() += 1;
    }

    pub fn note_kept(&mut self, answer: u8) {
        *self.kept.entry(answer).or_default() += 1;
    }

    pub fn note_entries(&mut self, numbers: &[u16]) {
        for t in 0..3 {
            for e in 0..usize::from(numbers[6 + t]) {
                *self.entries.entry(numbers[9 + 8 * (t * ENTRIES + e)]).or_default() += 1;
            }
        }
    }

    fn seen(&self, call: &str, answer: u8) -> u64 {
        self.calls.get(call).and_then(|answers| answers.get(&answer)).copied().unwrap_or(0)
    }

    pub fn print(&self) {
        for (call, answers) in ANSWERS {
            let seen = answers.iter().map(|&answer| (answer, self.seen(call, answer))).collect();
            line(call, &seen, |&answer| meaning(call, answer));
        }
        line("rings", &self.rings, |&n| if n == 0 { "others".into() } else { n.to_string() });
        line("entries", &self.entries, u16::to_string);
        line("next, the cursor kept while words were stored", &self.kept, |&answer| meaning("next", answer));
        println!("scans that changed anything: {}, and {} words", self.ran, self.words);
        println!("scans not due, with a flag or port neither 0 nor 1: {}", self.idle);
        let never = |(call, answers): &(&str, &[u8])| answers.iter().filter(|&&n| self.seen(call, n) == 0).count();
        let kept_never = KEPT.iter().filter(|n| !self.kept.contains_key(n)).count();
        let unseen = ANSWERS.iter().map(never).sum::<usize>() + kept_never;
        println!("answers that a call can give and that were not seen: {unseen}");
    }
}

fn line<K>(name: impl Display, counts: &BTreeMap<K, u64>, shown: impl Fn(&K) -> String) {
    print!("{name}:");
    for (key, count) in counts {
        print!(" {}={count}", shown(key));
    }
    println!();
}

fn meaning(call: &str, answer: u8) -> String {
    match (call, answer) {
        ("list" | "next", 0) => "none".into(),
        ("list", 1) => "id".into(),
        ("list", 2) => "value".into(),
        ("next", 1) => "array".into(),
        ("next", 3) => "moved on".into(),
        ("check text" | "check record", 0) => "pass".into(),
        (_, 0) => "done".into(),
        (_, n) => n.to_string(),
    }
}
