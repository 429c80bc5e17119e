//! Why a call was refused.

use std::error::Error;
use std::fmt;

/// The refusals with their numbers and texts, of which all else here is made.
macro_rules! refusals {
    ($($(#[$doc:meta])* $name:ident = $number:literal: $text:literal,)*) => {
        /// A refused call changes nothing and says why (the manual, section
        /// 14). The number 3 is no longer given; a later version may give others.
        ///
        /// ```
        /// use abr::Refusal;
        /// assert_eq!(abr::rate(0x1_0000), Err(Refusal::Range));
        /// assert_eq!(Refusal::Range.number(), 7);
        /// assert_eq!(Refusal::try_from(7), Ok(Refusal::Range));
        /// assert_eq!(Refusal::try_from(3), Err(3));
        /// assert_eq!(Refusal::try_from(1_000), Err(1_000));
        /// assert_eq!(Refusal::NotOpen.to_string(), "connection is not open");
        /// ```
        #[derive(Debug, Clone, Copy, PartialEq, Eq, Hash)]
        #[non_exhaustive]
        #[repr(u32)]
        pub enum Refusal { $($(#[$doc])* $name = $number,)* }

        impl Refusal {
            /// All refusals in the order of their numbers.
            pub const ALL: &'static [Refusal] = &[$(Refusal::$name,)*];

            /// Its text, the same as that of `abr_refusal_text` in the C header.
            pub const fn text(self) -> &'static str {
                match self {
                    $(Refusal::$name => $text,)*
                }
            }
        }
    };
}

refusals! {
    /// A cell or a slot's buffer is not 53 octets.
    Length = 1: "cell or buffer is not 53 octets",
    /// Octet 5 is wrong.
    HeaderCheck = 2: "octet 5 is wrong",
    /// The payload type is 4, 5 or 7.
    PayloadType = 4: "payload type is 4, 5 or 7",
    /// The CRC-10 of an RM cell is wrong.
    Crc = 5: "CRC-10 is wrong",
    /// The protocol of an RM cell is not 1.
    Protocol = 6: "protocol is not 1",
    /// A parameter, a field to write, the VPI or VCI of an open, or a rate code is out
    /// of range.
    Range = 7: "parameter, field, address or rate code is out of range",
    /// The time is over 2^62.
    Time = 8: "time is over 2^62",
    /// The level is over 2, or the rate to code above the largest.
    TooLarge = 9: "level is over 2 or rate is above the largest",
    /// A VCI under 32 was to be opened, on any VPI.
    LowVci = 10: "VCI is under 32",
    /// No connection with this VPI and VCI is open.
    NotOpen = 11: "connection is not open",
    /// A connection with this VPI and VCI is already open.
    AlreadyOpen = 12: "connection is already open",
    /// As many connections are open as there can be.
    Full = 13: "as many connections are open as there can be",
    /// The time is before that of the last accepted open, slot, made or
    /// out-of-rate cell.
    TimeBackward = 14: "time is before the last accepted open, slot, made or out-of-rate cell",
    /// More than 65,535 data cells would wait.
    TooMuchData = 15: "waiting data would pass 65,535 cells",
    /// A cell was to be made, but the congestion level is 0.
    NotCongested = 16: "congestion level is 0",
    /// Less than 100 ms have passed since the connection's last made cell.
    MadeTooSoon = 17: "less than 100 ms since the last cell made on this connection",
    /// Less than 100 ms have passed since the connection's last out-of-rate cell.
    OutOfRateTooSoon = 18: "less than 100 ms since the last out-of-rate cell on this connection",
    /// A rate code that was read has the reserved bit set.
    ReservedBit = 19: "reserved bit of a rate code is set",
    /// A double is not a rate: not a number, infinite, below 0, between 0 and 1, or 2^32
    /// and more.
    Double = 20: "not a rate: not a number, infinite, below 0, between 0 and 1, or 2^32 and more",
    /// More than 1,024 demands.
    TooManyDemands = 21: "over 1,024 demands",
    /// A demand is above the largest rate.
    DemandTooLarge = 22: "a demand is above the largest rate",
    /// A number of a trace is not in shortest form, or has more than 64 bits.
    TraceNumber = 23: "a number of a trace is not in shortest form or over 64 bits",
    /// A trace is empty, or ends inside a record.
    TraceEnd = 24: "trace is empty or ends inside a record",
    /// n, the Trm number, a kind, a rate or the sum of the times of a trace is out of
    /// range.
    TraceRange = 25: "n, Trm number, kind, rate or summed time of a trace is out of range",
    /// The paths of the table have 256 members.
    MembersFull = 26: "256 members are in the engine",
    /// The pair is a member of its path.
    AlreadyMember = 27: "pair is already a member of its path",
    /// The path is open, but the VCI is no member of it.
    NotAMember = 28: "path is open, but the VCI is no member of it",
    /// TBE is 0 or over 16,777,215.
    Tbe = 29: "TBE is 0 or over 16,777,215",
    /// FRTT is over 16,700,000.
    Frtt = 30: "FRTT is over 16,700,000",
}

impl Refusal {
    /// Its number in the documents.
    pub const fn number(self) -> u32 {
        self as u32
    }

    /// The outcome that an answer of the C interface means.
    pub(crate) fn outcome(answer: u32) -> Result<(), Refusal> {
        match Refusal::try_from(answer) {
            Ok(refusal) => Err(refusal),
            Err(0) => Ok(()),
            Err(other) => unreachable!("the library answered {other}"),
        }
    }
}

impl TryFrom<u32> for Refusal {
    type Error = u32;

    /// The refusal with a number, or the number back if there is none.
    fn try_from(number: u32) -> Result<Self, u32> {
        let found = Refusal::ALL.iter().find(|r| r.number() == number);
        found.copied().ok_or(number)
    }
}

impl From<Refusal> for u32 {
    fn from(refusal: Refusal) -> u32 {
        refusal.number()
    }
}

impl fmt::Display for Refusal {
    fn fmt(&self, f: &mut fmt::Formatter<'_>) -> fmt::Result {
        f.write_str(self.text())
    }
}

impl Error for Refusal {}
