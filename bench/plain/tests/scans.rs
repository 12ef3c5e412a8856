mod common;
use common::{cases, compare, text, verdict, words};
use plain::*;
use std::fmt::Write;

const FOLDER: &str = concat!(env!("CARGO_MANIFEST_DIR"), "/../../crates/test_calls");

struct Bench {
    state: State,
    readings: Vec<f32>,
    locations: Vec<f32>,
    sums: Vec<f32>,
    counts: Vec<u32>,
    ring: Vec<u16>,
    /// The lengths lent: locations, sums, counts, readings, ring.
    lent: [usize; 5],
}

fn float(s: &str) -> f32 {
    f32::from_bits(u32::from_str_radix(s, 16).unwrap())
}

fn bits(all: &[bool]) -> String {
    all.iter().map(|&b| if b { '1' } else { '0' }).collect()
}

fn floats(name: &str, all: &[f32], out: &mut String) {
    write!(out, " {name}").unwrap();
    for (n, v) in all.iter().enumerate().filter(|(_, v)| v.to_bits() != 0) {
        if v.is_nan() {
            write!(out, " {}=nan", n + 1).unwrap();
        } else {
            write!(out, " {}={:08x}", n + 1, v.to_bits()).unwrap();
        }
    }
}

impl Bench {
    fn show(&self, call: &str, answer: u8) -> String {
        let s = &self.state;
        let mut out = format!(
            "{call} {answer} flags {} ports {} ring {} {} array {} last {} {} {} {}",
            bits(&s.flags),
            bits(&s.ports),
            s.position,
            s.filled,
            s.array,
            s.days[0],
            s.minutes[0],
            s.days[1],
            s.minutes[1]
        );
        floats("locations", &self.locations, &mut out);
        floats("sums", &self.sums, &mut out);
        out += " counts";
        for (n, v) in self.counts.iter().enumerate().filter(|(_, &v)| v != 0) {
            write!(out, " {}={v}", n + 1).unwrap();
        }
        out += " words";
        let used = self.ring.iter().rposition(|&w| w != 0).map_or(0, |n| n + 1);
        for run in self.ring[..used].chunk_by(|a, b| a == b) {
            write!(out, " {}", run[0]).unwrap();
            if run.len() > 1 {
                write!(out, "*{}", run.len()).unwrap();
            }
        }
        out
    }

    fn put(&mut self, w: &[&str]) {
        let n: usize = w[2].parse().unwrap();
        let values = || w[3..].iter().enumerate().map(|(i, &s)| (n - 1 + i, s));
        match w[1] {
            "location" => values().for_each(|(i, s)| self.locations[i] = float(s)),
            "sum" => values().for_each(|(i, s)| self.sums[i] = float(s)),
            "reading" => values().for_each(|(i, s)| self.readings[i] = float(s)),
            "count" => values().for_each(|(i, s)| self.counts[i] = s.parse().unwrap()),
            "word" => values().for_each(|(i, s)| self.ring[i] = s.parse().unwrap()),
            "position" => self.state.position = n as u16,
            "filled" => self.state.filled = n as u16,
            "id" => self.state.array = n as u16,
            "day" => self.state.days[n - 1] = w[3].parse().unwrap(),
            "minute" => self.state.minutes[n - 1] = w[3].parse().unwrap(),
            other => panic!("@put {other}"),
        }
    }

    fn run(&mut self, p: &Program, w: &[&str]) -> u8 {
        let n = |i: usize| w[i].parse::<u32>().unwrap();
        scan(
            p,
            n(1) as usize - 1,
            n(2),
            n(3),
            &mut self.state,
            &self.readings[..self.lent[3]],
            &mut self.locations[..self.lent[0]],
            &mut self.sums[..self.lent[1]],
            &mut self.counts[..self.lent[2]],
            &mut self.ring[..self.lent[4]],
        )
    }
}

/// Every item of the ring by the iterator, and every array so by the cursor, for comparison with `list`.
fn whole(state: &State, ring: &[u16]) -> Vec<Vec<Listed>> {
    let all: Vec<Vec<Listed>> = arrays(state, ring).map_or(Vec::new(), |all| {
        all.map(|a| std::iter::once(Listed::Id(a.id)).chain(a.map(Listed::Value)).collect()).collect()
    });
    let (mut cursor, mut words) = (Cursor::default(), vec![0; ring.len()]);
    for array in &all {
        let Next::Array { id, count } = next(state, ring, &mut cursor, &mut words) else {
            panic!("{array:?} is not answered");
        };
        let values = words[..count].iter().map(|&w| Listed::Value(value_of(w).unwrap()));
        assert_eq!(std::iter::once(Listed::Id(id)).chain(values).collect::<Vec<_>>(), *array);
    }
    let last = cursor;
    assert_eq!((next(state, ring, &mut cursor, &mut words), cursor), (Next::None, last));
    all
}

#[test]
fn scans_keyings_and_listings() {
    let mut ours = Vec::new();
    for case in cases(&format!("{FOLDER}/stdin")) {
        let (v, mut p) = check_text(&text(&case));
        ours.push(format!("{} {}", case.name, verdict(v)));
        let mut b = Bench {
            state: State::fresh(),
            readings: vec![0.0; 300],
            locations: vec![0.0; 3_000],
            sums: vec![0.0; 3_000],
            counts: vec![0; 400],
            ring: vec![0; 33_000],
            lent: [p.locations as usize, p.sums as usize, 297, 196, 64],
        };
        for line in &case.lines {
            let w = words(line);
            match w.first().copied() {
                Some("@lend") => {
                    for i in 0..5 {
                        b.lent[i] = w[i + 1].parse().unwrap();
                    }
                }
                Some("@put") => b.put(&w),
                Some("@run") => {
                    let answer = b.run(&p, &w);
                    ours.push(b.show("run", answer));
                }
                Some("@key") => {
                    let locations = &mut b.locations[..b.lent[0]];
                    let answer = key_location(&p, w[1].parse().unwrap(), float(w[2]), locations);
                    ours.push(b.show("key", answer));
                }
                Some("@invert") => {
                    let answer = key_flag(&p, w[1].parse().unwrap(), &mut b.state);
                    ours.push(b.show("invert", answer));
                }
                Some("@show") => {
                    let ring = &b.ring[..b.lent[4]];
                    let (k, j) = (w[1].parse().unwrap(), w[2].parse().unwrap());
                    let listed = list(&b.state, ring, k, j);
                    if !matches!(listed, Listed::Refused(_)) {
                        let all = whole(&b.state, ring);
                        let item = all.get(k).and_then(|a| a.get(j)).copied().unwrap_or(Listed::None);
                        assert_eq!(listed, item);
                    }
                    ours.push(match listed {
                        Listed::Refused(n) => format!("show E {n}"),
                        Listed::Id(n) => format!("show id {n}"),
                        Listed::Value(v) => {
                            format!("show value {} {} {}", v.negative as u8, v.places, v.digits)
                        }
                        Listed::None => "show none".into(),
                    });
                }
                Some("@alter") => {
                    let (t, e): (usize, usize) = (w[1].parse().unwrap(), w[2].parse().unwrap());
                    p.entries[t - 1][e - 1] = Instruction::End;
                    ours.push(format!("alter {}", verdict(check_record(&p))));
                }
                _ => {}
            }
        }
    }
    compare("scans", &ours, &format!("{FOLDER}/stdout"));
}
