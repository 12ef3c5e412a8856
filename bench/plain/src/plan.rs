//! What the check leaves for a scan.

use crate::program::*;

#[derive(Clone, Copy)]
pub(crate) struct Link {
    /// Of a Then Do that is false, of an Else, and of its End: the entry to go to. Of an 87: the entry behind its End.
    /// Of a loop's End: the entry behind its 87, so one before it. Of a subroutine's End: `RETURN`. Of a call: the
    /// subroutine's place among the 30.
    pub to: u16,
    /// The 87 of the innermost loop open in this table or subroutine, or `NO_LOOP`; of a loop's End that loop's.
    pub own: u16,
    /// Of 71 to 74: the first sum. Of a loop's End: the loop's count. Of a call: how often it is counted.
    pub extra: u16,
}

pub(crate) const NO_LOOP: u16 = SLOTS as u16;
pub(crate) const RETURN: u16 = u16::MAX;

pub(crate) struct Plan {
    pub links: [Link; SLOTS],
    /// Where each subroutine's 85 stands.
    pub starts: [u16; SUBROUTINES],
}

impl Plan {
    #[inline(always)]
    pub fn new() -> Plan {
        Plan { links: [Link { to: 0, own: 0, extra: 0 }; SLOTS], starts: [0; SUBROUTINES] }
    }
}
