//! The 100 ms between two cells of the sorts that a connection may have ten times a
//! second: made cells (document 02, L1) and out-of-rate cells (L5).

/// The least time from one cell of such a sort to the next.
pub const INTERVAL: u64 = 100_000_000;

/// When a connection last had a cell of one such sort; nothing before the first.
#[derive(Debug, Clone, Copy, PartialEq, Eq, Default)]
pub struct Spacing {
    pub(crate) last: Option<u64>,
}

impl Spacing {
    /// Whether one is allowed at this time, which isn't before the last; if so it is
    /// the last one from now on.
    pub fn allow(&mut self, time: u64) -> bool {
        if self.last.is_some_and(|last| time - last < INTERVAL) {
            return false;
        }
        self.last = Some(time);
        true
    }
}
