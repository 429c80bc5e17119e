//! The refusals of document 01 by number ("Refused because of the input" and
//! "Refused because of the state"), and those of document 02.

/// The refusals with their numbers, of which all else here is made.
macro_rules! refusals {
    ($($(#[$doc:meta])* $name:ident = $number:literal,)*) => {
        /// Why a call is refused.
        #[derive(Debug, Clone, Copy, PartialEq, Eq, PartialOrd, Ord)]
        #[repr(u32)]
        pub enum Refusal { $($(#[$doc])* $name = $number,)* }

        impl TryFrom<u32> for Refusal {
            type Error = u32;

            /// The refusal with a number, or the number back if there is none.
            fn try_from(number: u32) -> Result<Self, u32> {
                match number {
                    $($number => Ok(Refusal::$name),)*
                    other => Err(other),
                }
            }
        }
    };
}

refusals! {
    /// A cell or a slot's buffer that isn't 53 octets long.
    Length = 1,
    /// Octet 5 doesn't match the four octets before it.
    HeaderCheck = 2,
    // 3 was a VPI other than 0. Document 02's L6 withdrew it; its number stays unused.
    /// A payload type that is neither user data nor RM.
    PayloadType = 4,
    /// The CRC-10 of an RM cell is wrong.
    Crc = 5,
    /// The protocol octet of an RM cell isn't 1.
    Protocol = 6,
    /// A parameter of an open, its VPI or VCI, or a field to be written, is out of range.
    Range = 7,
    /// A time later than 2^62.
    Time = 8,
    /// A congestion level over 2, or a rate too large to have a code.
    TooLarge = 9,
    /// An open of one of the VCIs 0 to 31, on any VPI.
    LowVci = 10,
    /// No connection is open under this VPI and VCI.
    NotOpen = 11,
    /// A connection is open under this VPI and VCI already.
    AlreadyOpen = 12,
    /// The table is full.
    Full = 13,
    /// The time is before the last accepted open, slot, made or out-of-rate cell.
    TimeBackward = 14,
    /// More than 65,535 data cells would wait.
    TooMuchData = 15,
    /// A backward cell was to be made at level 0.
    NotCongested = 16,
    /// Less than 100 ms have passed since the last made cell of the connection.
    MadeTooSoon = 17,
    /// Less than 100 ms have passed since the connection's last out-of-rate cell.
    OutOfRateTooSoon = 18,
    /// A rate code that was read has the reserved bit set.
    ReservedBit = 19,
    /// A double that is no rate: not a number, infinite, below 0, between 0 and 1, or 2^32
    /// and more.
    Double = 20,
    /// More than 1,024 demands.
    TooManyDemands = 21,
    /// A demand above the largest rate.
    DemandTooLarge = 22,
    /// A number of a trace that isn't in shortest form, or has more than 64 bits.
    TraceNumber = 23,
    /// A trace that is empty, or ends inside a record.
    TraceEnd = 24,
    /// n, Trm number, kind, rate or summed time of a trace out of range.
    TraceRange = 25,
    /// The paths of the engine have 256 members already.
    MembersFull = 26,
    /// The pair is a member of its path already.
    AlreadyMember = 27,
    /// The path is open, but the VCI is no member of it.
    NotAMember = 28,
    /// TBE is 0 or over 16,777,215.
    Tbe = 29,
    /// FRTT is over 16,700,000.
    Frtt = 30,
}

impl Refusal {
    /// Its number in the documents.
    pub const fn number(self) -> u32 {
        self as u32
    }
}

#[cfg(test)]
mod tests {
    use super::*;

    /// Numbers from 1 on, of which 3 is withdrawn (document 02, L6).
    #[test]
    fn numbers_there_and_back() {
        let known = (0..100).filter(|number| Refusal::try_from(*number).is_ok());
        let known: Vec<u32> = known.collect();
        let last = *known.last().expect("there are refusals");
        assert!(known.iter().copied().eq((1..=last).filter(|n| *n != 3)));
        for number in known {
            assert_eq!(Refusal::try_from(number).map(Refusal::number), Ok(number));
        }
    }
}
