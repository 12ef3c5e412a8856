//! Faults 2 to 22 of a record in one pass over its entries. The pass also leaves what a scan needs: jump targets,
//! each entry's innermost own loop, and its first sum.

use crate::plan::{Link, Plan, NO_LOOP, RETURN};
use crate::program::*;
use crate::ranges::{entry_allowed, interval_allowed};
use crate::verdict::{fault, fault_at, Verdict};

const NOWHERE: u16 = u16::MAX;
const OPEN_BLOCKS: usize = 11;
const CHAIN: usize = 7;
const MOST_COUNTED: u32 = 60_000;
const NO_SUBROUTINE: u8 = u8::MAX;

#[derive(Clone, Copy, PartialEq, Eq)]
enum Kind {
    Then,
    Else,
    Loop,
}

#[derive(Clone, Copy)]
struct Block {
    kind: Kind,
    /// The entry whose jump waits for the End.
    at: u16,
    /// Outside the block: the own loop, its count, the weight.
    own: u16,
    own_count: u16,
    weight: u32,
}

/// A table or subroutine: its own entries' count and its calls.
#[derive(Clone, Copy)]
struct Region {
    count: u32,
    from: u16,
    to: u16,
}

struct Walk {
    most_location: u32,
    most_sum: u32,
    table: usize,
    subroutine: u8,
    blocks: [Block; OPEN_BLOCKS],
    open: usize,
    own: u16,
    own_count: u16,
    /// How often an entry here is counted, at most 60,001.
    weight: u32,
    count: u32,
    first_site: u16,
    /// The entries that call, in order.
    sites: [u16; SLOTS],
    site_count: usize,
    tables: [Region; 2],
    subroutines: [Region; SUBROUTINES],
    defined: u32,
    calls: [u32; SUBROUTINES],
    sum: u32,
    first_20: u16,
    first_21: u16,
}

impl Walk {
    #[inline(always)]
    fn new(p: &Program) -> Walk {
        let region = Region { count: 0, from: 0, to: 0 };
        let block = Block { kind: Kind::Then, at: 0, own: 0, own_count: 0, weight: 0 };
        Walk {
            most_location: p.locations as u32,
            most_sum: p.sums as u32,
            table: 0,
            subroutine: NO_SUBROUTINE,
            blocks: [block; OPEN_BLOCKS],
            open: 0,
            own: NO_LOOP,
            own_count: 1,
            weight: 1,
            count: 0,
            first_site: 0,
            sites: [0; SLOTS],
            site_count: 0,
            tables: [region; 2],
            subroutines: [region; SUBROUTINES],
            defined: 0,
            calls: [0; SUBROUTINES],
            sum: 0,
            first_20: NOWHERE,
            first_21: NOWHERE,
        }
    }

    fn begin_region(&mut self) {
        self.count = 0;
        self.first_site = self.site_count as u16;
    }

    fn region(&self) -> Region {
        Region { count: self.count, from: self.first_site, to: self.site_count as u16 }
    }

    fn refuse_20(&mut self, at: u16) {
        if self.first_20 == NOWHERE {
            self.first_20 = at;
        }
    }

    #[inline]
    fn locations(&mut self, at: u16, l: Location, reps: u8) {
        let shift = if l.indexed { self.own_count as u32 - 1 } else { 0 };
        if l.number == 0 || l.number as u32 + shift + reps as u32 - 1 > self.most_location {
            self.refuse_20(at);
        }
    }

    #[inline]
    fn location(&mut self, at: u16, l: Location) {
        self.locations(at, l, 1);
    }

    fn push(&mut self, kind: Kind, at: u16) -> u8 {
        if self.open == OPEN_BLOCKS {
            return 16;
        }
        self.blocks[self.open] = Block { kind, at, own: self.own, own_count: self.own_count, weight: self.weight };
        self.open += 1;
        0
    }

    fn command(&mut self, at: u16, command: Command, plan: &mut Plan) -> u8 {
        match command {
            Command::ThenDo => return self.push(Kind::Then, at),
            Command::ExitIfTrue | Command::ExitIfFalse if self.own == NO_LOOP => return 15,
            Command::Call(n) => {
                let callee = subroutine_slot(n);
                let link = &mut plan.links[at as usize];
                link.to = callee as u16;
                link.extra = self.weight as u16;
                self.sites[self.site_count] = at;
                self.site_count += 1;
                if self.subroutine != NO_SUBROUTINE {
                    self.calls[self.subroutine as usize] |= 1 << callee;
                }
            }
            _ => {}
        }
        0
    }

    fn begin_subroutine(&mut self, at: u16, n: u8, plan: &mut Plan) -> u8 {
        if self.table != 2 || self.subroutine != NO_SUBROUTINE {
            return 10;
        }
        let slot = subroutine_slot(n);
        if self.defined & 1 << slot != 0 {
            return 11;
        }
        self.defined |= 1 << slot;
        plan.starts[slot] = at;
        self.subroutine = slot as u8;
        self.begin_region();
        0
    }

    fn otherwise(&mut self, at: u16, plan: &mut Plan) -> u8 {
        if self.open == 0 || self.blocks[self.open - 1].kind != Kind::Then {
            return 14;
        }
        let block = &mut self.blocks[self.open - 1];
        plan.links[block.at as usize].to = at + 1;
        block.kind = Kind::Else;
        block.at = at;
        0
    }

    fn end(&mut self, at: u16, plan: &mut Plan) -> u8 {
        if self.open == 0 {
            if self.subroutine == NO_SUBROUTINE {
                return 13;
            }
            plan.links[at as usize].to = RETURN;
            self.subroutines[self.subroutine as usize] = self.region();
            self.subroutine = NO_SUBROUTINE;
            return 0;
        }
        self.open -= 1;
        let block = self.blocks[self.open];
        plan.links[block.at as usize].to = at + 1;
        if block.kind == Kind::Loop {
            plan.links[at as usize] = Link { to: block.at + 1, own: block.at, extra: self.own_count };
            self.own = block.own;
            self.own_count = block.own_count;
            self.weight = block.weight;
        } else {
            plan.links[at as usize].to = at + 1;
        }
        0
    }

    /// Fault 10 to 16 of one entry, or 0.
    #[inline]
    fn step(&mut self, at: u16, i: &Instruction, plan: &mut Plan) -> u8 {
        if self.table == 2 && self.subroutine == NO_SUBROUTINE {
            match i {
                Instruction::Subroutine(_) | Instruction::End => {}
                _ => return 12,
            }
        }
        plan.links[at as usize].own = self.own;
        self.count += self.weight;
        match *i {
            Instruction::Single { reps, channel, to, .. } => {
                if channel as u32 + reps as u32 - 1 > 196 {
                    self.refuse_20(at);
                }
                self.locations(at, to, reps);
            }
            Instruction::Differential { reps, channel, to, .. } => {
                if channel as u32 + reps as u32 - 1 > 98 {
                    self.refuse_20(at);
                }
                self.locations(at, to, reps);
            }
            Instruction::Fix { to, .. } | Instruction::Increment { to } => self.location(at, to),
            Instruction::Move { x, to }
            | Instruction::AddFixed { x, to, .. }
            | Instruction::MultiplyFixed { x, to, .. } => {
                self.location(at, x);
                self.location(at, to);
            }
            Instruction::Add { x, y, to }
            | Instruction::Subtract { x, y, to }
            | Instruction::Multiply { x, y, to }
            | Instruction::Divide { x, y, to } => {
                self.location(at, x);
                self.location(at, y);
                self.location(at, to);
            }
            Instruction::Sample { reps, from } => self.locations(at, from, reps),
            Instruction::Statistic { reps, from, .. } => {
                self.locations(at, from, reps);
                plan.links[at as usize].extra = self.sum as u16;
                self.sum += reps as u32;
                if self.sum > self.most_sum && self.first_21 == NOWHERE {
                    self.first_21 = at;
                }
            }
            Instruction::Clock(_) => {}
            Instruction::Subroutine(n) => return self.begin_subroutine(at, n, plan),
            Instruction::Do(command) => return self.command(at, command, plan),
            Instruction::Loop { count, .. } => {
                let full = self.push(Kind::Loop, at);
                if full != 0 {
                    return full;
                }
                self.own = at;
                self.own_count = count;
                self.weight = (self.weight * count as u32).min(MOST_COUNTED + 1);
            }
            Instruction::IfLocation { x, y, command, .. } => {
                self.location(at, x);
                self.location(at, y);
                return self.command(at, command, plan);
            }
            Instruction::IfFixed { x, command, .. } => {
                self.location(at, x);
                return self.command(at, command, plan);
            }
            Instruction::IfFlag { command, .. } | Instruction::IfTime { command, .. } => {
                return self.command(at, command, plan);
            }
            Instruction::Else => return self.otherwise(at, plan),
            Instruction::End => return self.end(at, plan),
        }
        0
    }

    /// A region's stated count, up to 60,001, by those of the subroutines it calls.
    fn stated(&self, region: Region, counts: &[u32; SUBROUTINES], plan: &Plan) -> u32 {
        let mut n = region.count as u64;
        for &at in &self.sites[region.from as usize..region.to as usize] {
            let call = plan.links[at as usize];
            n += call.extra as u64 * counts[call.to as usize] as u64;
        }
        n.min(MOST_COUNTED as u64 + 1) as u32
    }

    /// Faults 18 to 22 of a record whose blocks are in order.
    fn finish(&self, plan: &Plan) -> Verdict {
        let missing = self.sites[..self.site_count]
            .iter()
            .find(|&&at| self.defined & 1 << plan.links[at as usize].to == 0)
            .map_or(NOWHERE, |&at| at);
        if missing != NOWHERE && missing <= self.first_20 {
            return fault_at(18, missing);
        }
        if self.first_20 != NOWHERE {
            return fault_at(20, self.first_20);
        }

        // Round k leaves the subroutines that start a chain over k, and counts those whose longest is k.
        let mut counts = [0; SUBROUTINES];
        let mut long = self.defined;
        for _ in 0..CHAIN {
            let mut longer = 0;
            let mut left = long;
            while left != 0 {
                let s = left.trailing_zeros() as usize;
                left &= left - 1;
                if self.calls[s] & long != 0 {
                    longer |= 1 << s;
                } else {
                    counts[s] = self.stated(self.subroutines[s], &counts, plan);
                }
            }
            long = longer;
            if long == 0 {
                break;
            }
        }
        if long != 0 {
            let first = (0..SUBROUTINES).filter(|s| long & 1 << s != 0).map(|s| plan.starts[s]).min();
            return fault_at(19, first.unwrap_or(0));
        }
        if self.first_21 != NOWHERE {
            return fault_at(21, self.first_21);
        }
        let first = self.stated(self.tables[0], &counts, plan);
        if first > MOST_COUNTED {
            return fault(22, 1, 0);
        }
        let second = self.stated(self.tables[1], &counts, plan);
        if second > MOST_COUNTED {
            return fault(22, 2, 0);
        }
        Verdict::Pass(first, second)
    }
}

/// The verdict, and for a pass the plan. Faults 2, 5 and 6 come before all others, so they end the pass at once;
/// the first of 10 to 17 waits until there can be none.
pub(crate) fn judge(p: &Program, plan: &mut Plan) -> Verdict {
    if !(1..=2_000).contains(&p.locations) || p.sums > 2_000 {
        return fault(2, 0, 0);
    }
    let mut walk = Walk::new(p);
    let mut blocks: Option<Verdict> = None;
    for t in 0..3 {
        if t < 2 && !interval_allowed(t, p.intervals[t]) {
            return fault(5, t + 1, 0);
        }
        walk.table = t;
        walk.begin_region();
        let length = p.lengths[t] as usize;
        let held = length.min(ENTRIES);
        for (e, i) in p.entries[t][..held].iter().enumerate() {
            if !entry_allowed(i) {
                return fault(2, t + 1, e + 1);
            }
            if blocks.is_none() {
                let number = walk.step((t * ENTRIES + e) as u16, i, plan);
                if number != 0 {
                    blocks = Some(fault(number, t + 1, e + 1));
                }
            }
        }
        if length > ENTRIES {
            return fault(6, t + 1, ENTRIES + 1);
        }
        if blocks.is_none() && (walk.open > 0 || walk.subroutine != NO_SUBROUTINE) {
            blocks = Some(fault(17, t + 1, held + 1));
        }
        if t < 2 {
            walk.tables[t] = walk.region();
        }
    }
    match blocks {
        Some(verdict) => verdict,
        None => walk.finish(plan),
    }
}

pub fn check_record(p: &Program) -> Verdict {
    judge(p, &mut Plan::new())
}
