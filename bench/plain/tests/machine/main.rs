//! The scan against a machine written by the paper's words.

mod by_the_paper;
mod made;

use by_the_paper::Machine;
use made::Made;
use plain::*;
use random::Random;

fn bits(v: &[f32]) -> Vec<u32> {
    v.iter().map(|x| if x.is_nan() { u32::MAX } else { x.to_bits() }).collect()
}

#[test]
fn scan_is_the_machine() {
    let mut r = Made(Random::new(1));
    let (mut programs, mut entries, mut words, mut steps) = (0, 0, 0, 0);
    for _ in 0..6_000 {
        let mut p = Program::empty();
        p.locations = 30;
        p.sums = 2_000;
        p.intervals = [[1, 8, 80][r.below(3) as usize], [8, 2_400][r.below(2) as usize]];
        for t in 0..3 {
            let mut all = Vec::new();
            if t == 2 {
                for n in 1..=3 {
                    all.push(Instruction::Subroutine(n));
                    r.body(&mut all, 1, false, n - 1);
                    all.push(Instruction::End);
                }
            } else {
                r.body(&mut all, 0, false, 3);
                r.body(&mut all, 0, false, 3);
            }
            p.lengths[t] = all.len().min(255) as u8;
            if all.len() <= 99 {
                p.entries[t][..all.len()].copy_from_slice(&all);
            }
        }
        let Verdict::Pass(first, second) = check_record(&p) else { continue };
        programs += 1;
        let mut state = State::fresh();
        let mut locations: Vec<f32> = (0..p.locations).map(|_| r.float()).collect();
        let mut sums: Vec<f32> = (0..p.sums).map(|_| r.float()).collect();
        let mut counts: Vec<u32> = (0..297).map(|_| [0, 1, 2, 16_777_214, 16_777_215][r.below(5) as usize]).collect();
        let mut ring = vec![0; 1 + r.below(200) as usize];
        let mut m = Machine {
            state,
            locations: locations.clone(),
            sums: sums.clone(),
            counts: counts.clone(),
            stored: Vec::new(),
        };
        let (mut day, mut time) = (1, 0);
        for n in 0..6 {
            let readings: Vec<f32> = (0..196).map(|_| r.float()).collect();
            let table = n % 2;
            let answer =
                scan(&p, table, day, time, &mut state, &readings, &mut locations, &mut sums, &mut counts, &mut ring);
            assert_eq!(answer, 0);
            let carried = m.scan(&p, table, day, time, &readings);
            assert!(carried <= [first, second][table] as u64, "{carried} entries, stated {first} {second}");
            steps += carried;
            if r.below(4) == 0 {
                let f = 1 + r.below(8) as u8;
                assert_eq!(key_flag(&p, f, &mut state), 0);
                m.state.flags[f as usize] ^= true;
            }
            // The ring shows the last words stored.
            let len = ring.len();
            let kept = m.stored.len().min(len);
            let shown: Vec<u16> =
                (0..kept).map(|i| ring[(state.position as usize + 2 * len - kept + i) % len]).collect();
            assert_eq!(shown, m.stored[m.stored.len() - kept..]);
            m.state.position = (m.stored.len() % len) as u16;
            m.state.filled = kept as u16;
            assert_eq!(state, m.state);
            assert_eq!(bits(&locations), bits(&m.locations));
            assert_eq!(bits(&sums), bits(&m.sums));
            assert_eq!(counts, m.counts);
            if table == 1 {
                time = [time, time + 8, time + 2_400, time + 4_800, 0][r.below(5) as usize];
                day += (r.below(6) == 0) as u32;
            }
        }
        entries += p.lengths.iter().map(|&n| n as u32).sum::<u32>();
        words += m.stored.len();
    }
    eprintln!("{programs} programs of {entries} entries, {steps} steps, {words} words: agree");
}
