//! A policer as a network has one for each connection: ITU-T I.371's generic cell rate
//! algorithm as virtual scheduling, GCRA(T, tau), and its dynamic form (DGCRA), whose increment
//! is that of the rate in force at each cell.

/// The policer of one connection.
#[derive(Debug, Clone)]
pub struct Policer {
    /// The tolerance tau, in nanoseconds.
    tolerance: u64,
    /// The last virtual scheduled time: the later of a conforming cell's arrival and the time
    /// at which it was expected; none before the first cell.
    scheduled: Option<u64>,
    /// The cells that conformed, and those that did not, which a network would drop.
    pub conforming: u64,
    pub dropped: u64,
}

impl Policer {
    /// A policer before the first cell.
    pub fn new(tolerance: u64) -> Self {
        Policer {
            tolerance,
            scheduled: None,
            conforming: 0,
            dropped: 0,
        }
    }

    /// A cell arrives, the increment in force being this one: the same for every cell of
    /// GCRA. A cell that comes more than the tolerance before it is expected does not conform
    /// and changes nothing; another is expected an increment after the later of the two.
    pub fn arrives(&mut self, time: u64, increment: u64) -> bool {
        let expected = self.scheduled.map_or(time, |last| last + increment);
        let conforms = time + self.tolerance >= expected;
        if conforms {
            self.scheduled = Some(time.max(expected));
            self.conforming += 1;
        } else {
            self.dropped += 1;
        }
        conforms
    }
}

#[cfg(test)]
mod tests {
    use super::*;

    /// Which cells conform, at these times.
    fn conforming<const N: usize>(increment: u64, tolerance: u64, times: [u64; N]) -> [bool; N] {
        let mut policer = Policer::new(tolerance);
        times.map(|time| policer.arrives(time, increment))
    }

    #[test]
    fn without_tolerance_cells_are_an_increment_apart() {
        let all = conforming(10, 0, [5, 15, 25, 36, 46]);
        assert_eq!(all, [true; 5]);
        let some = conforming(10, 0, [5, 14, 15, 24, 26, 35, 36]);
        assert_eq!(some, [true, false, true, false, true, false, true]);
    }

    /// A late cell gives no credit: the next is expected an increment after it.
    #[test]
    fn the_tolerance_is_from_the_time_expected() {
        let cells = conforming(10, 3, [0, 6, 7, 16, 17, 50, 56, 57]);
        let expected = [true, false, true, false, true, true, false, true];
        assert_eq!(cells, expected);
    }

    /// I.371: of cells back to back at a distance d below T, 1 + tau / (T - d) conform, rounded
    /// down.
    #[test]
    fn the_longest_burst() {
        for (increment, tolerance, distance) in
            [(10, 25, 1), (10, 9, 0), (100, 1_000, 99), (7, 0, 3)]
        {
            let mut policer = Policer::new(tolerance);
            let mut times = (0..).map(|cell| cell * distance);
            let burst = times
                .by_ref()
                .take_while(|time| policer.arrives(*time, increment));
            let longest = 1 + tolerance / (increment - distance);
            assert_eq!(burst.count() as u64, longest);
            assert_eq!((policer.conforming, policer.dropped), (longest, 1));
        }
    }

    /// The increment is that in force at the cell, not at the one before it.
    #[test]
    fn the_increment_may_change() {
        let mut policer = Policer::new(0);
        assert!(policer.arrives(0, 10));
        assert!(!policer.arrives(9, 10));
        assert!(policer.arrives(9, 9)); // the rate rose while it waited
        assert!(!policer.arrives(18, 20)); // it fell
        assert!(policer.arrives(29, 20));
        let mut tolerant = Policer::new(5);
        assert!(tolerant.arrives(100, 10));
        assert!(tolerant.arrives(105, 10)); // expected at 110
        assert!(!tolerant.arrives(109, 5)); // expected at 115
        assert!(tolerant.arrives(110, 5));
    }
}
