//! What the check says.

use crate::program::ENTRIES;

#[derive(Clone, Copy, Debug, PartialEq, Eq)]
pub enum Verdict {
    /// The stated counts of Tables 1 and 2.
    Pass(u32, u32),
    Fault {
        number: u8,
        table: u8,
        entry: u8,
    },
}

impl Verdict {
    pub fn passed(&self) -> bool {
        matches!(self, Verdict::Pass(..))
    }
}

pub(crate) fn fault(number: u8, table: usize, entry: usize) -> Verdict {
    Verdict::Fault { number, table: table as u8, entry: entry as u8 }
}

pub(crate) fn fault_at(number: u8, slot: u16) -> Verdict {
    let slot = slot as usize;
    fault(number, slot / ENTRIES + 1, slot % ENTRIES + 1)
}
