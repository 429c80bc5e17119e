//! The time to be passed to a slot, asked with clocks and lags at every edge: the clock
//! before, at and after the last accepted time and the next ready instant, and past 2^62; the
//! lag none, some slots, without end, and just what reaches one of these instants.

use crate::library::Difference;
use crate::rng::Rng;

/// What decides the time that is passed.
pub const CASES: [&str; 7] = [
    "a clock before the last accepted time",
    "no ready instant",
    "a clock before the ready instant",
    "a clock at the ready instant or the last accepted time",
    "the ready instant",
    "the last accepted time",
    "the lag",
];

/// A question.
#[derive(Debug, Clone, Copy)]
pub struct Question {
    /// The slot's own time.
    pub now: u64,
    /// The tolerance.
    pub lag: u64,
    /// The last accepted time.
    pub last: u64,
    /// The earliest ready instant; none for never.
    pub next: Option<u64>,
}

impl Question {
    /// A random one about a table.
    pub fn draw(rng: &mut Rng, last: u64, next: Option<u64>) -> Self {
        let now = draw_now(rng, last, next);
        let ready = next.unwrap_or(last);
        let (to_last, to_ready) = (now.saturating_sub(last), now.saturating_sub(ready));
        let (few, slots) = (1 + rng.below(1_000), 2_831 * rng.below(64));
        let any = rng.next() >> rng.below(64);
        let edge = rng.pick(&[to_last, to_ready, now]);
        let (less, more) = (edge.saturating_sub(1), edge.saturating_add(1));
        let lags = [0, few, slots, slots, less, edge, more, any, u64::MAX];
        let lag = rng.pick(&lags);
        Question {
            now,
            lag,
            last,
            next,
        }
    }

    /// The place in [`CASES`] of what decides the answer.
    pub fn case(&self) -> usize {
        let earliest = self.now.saturating_sub(self.lag);
        match self.next {
            _ if self.now < self.last => 0,
            None => 1,
            Some(next) if self.now < next => 2,
            Some(next) if self.now == next.max(self.last) => 3,
            Some(next) if next >= self.last.max(earliest) => 4,
            Some(_) if self.last >= earliest => 5,
            Some(_) => 6,
        }
    }

    /// What must be so of the answer, whatever it is: it is not after the clock; with a clock
    /// that is not before the last accepted time neither before that one, nor more than the
    /// lag before the clock, and as much before the ready instant, or not, as the clock is.
    pub fn check(&self, passed: u64) -> Result<(), Difference> {
        let Question {
            now,
            lag,
            last,
            next,
        } = *self;
        let idle = |time: u64| next.is_none_or(|next| time < next);
        let right = match now < last {
            true => passed == now,
            false => {
                last <= passed
                    && now.saturating_sub(lag) <= passed
                    && passed <= now
                    && idle(passed) == idle(now)
                    && (!idle(now) || passed == now)
            }
        };
        match right {
            true => Ok(()),
            false => Err(format!("slot_time {passed} of {self:?}")),
        }
    }
}

/// A clock, mostly at or beside the last accepted time or the next ready instant, or between
/// them and some slots later.
fn draw_now(rng: &mut Rng, last: u64, next: Option<u64>) -> u64 {
    const END: u64 = 1 << 62;
    let edge = rng.pick(&[last, last, next.unwrap_or(last)]);
    let later = last.max(next.unwrap_or(last));
    let (slots, before) = (rng.below(200_000), rng.below(last.saturating_add(1)));
    let (any, past) = (rng.next() >> rng.below(64), END + rng.below(1_000_000));
    rng.pick(&[
        edge,
        edge,
        edge.saturating_sub(1),
        edge.saturating_add(1),
        edge.saturating_add(slots),
        later.saturating_add(slots),
        later.saturating_add(slots),
        later.saturating_add(1),
        last.saturating_sub(slots),
        before,
        any,
        END,
        past,
        u64::MAX,
    ])
}

#[cfg(test)]
mod tests {
    use super::*;

    fn question(now: u64, lag: u64, last: u64, next: Option<u64>) -> Question {
        Question {
            now,
            lag,
            last,
            next,
        }
    }

    #[test]
    fn cases_by_hand() {
        let case = |now, lag, last, next| question(now, lag, last, next).case();
        assert_eq!(case(9, 5, 10, Some(3)), 0);
        assert_eq!(case(9, 5, 9, None), 1);
        assert_eq!(case(9, 5, 9, Some(10)), 2);
        assert_eq!(case(9, 5, 9, Some(3)), 3);
        assert_eq!(case(9, 5, 3, Some(9)), 3);
        assert_eq!(case(9, 5, 3, Some(4)), 4);
        assert_eq!(case(9, 5, 5, Some(4)), 5);
        assert_eq!(case(9, 5, 3, Some(3)), 6);
    }

    /// Each wrong answer breaks something, where the definition's does not.
    #[test]
    fn answers_by_hand() {
        let wrong = [
            (question(9, 5, 10, Some(3)), 9, 10),
            (question(9, 5, 3, Some(4)), 4, 3),
            (question(9, 5, 3, Some(4)), 4, 10),
            (question(9, 0, 3, Some(4)), 9, 8),
            (question(9, 9, 3, Some(2)), 3, 2),
            (question(9, 9, 3, Some(8)), 8, 7),
            (question(9, 9, 3, Some(10)), 9, 8),
            (question(9, 9, 3, None), 9, 3),
        ];
        for (question, right, answer) in wrong {
            assert_eq!(question.check(right), Ok(()), "{question:?}");
            assert!(question.check(answer).is_err(), "{question:?}");
        }
    }
}
