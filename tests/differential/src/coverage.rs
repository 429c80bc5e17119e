//! Counts of what the lists reached.

use abr::{COMPARISONS_MAX, TIME_MAX};
use abr_reference::Refusal;

use crate::call::{Call, Outcome, SORTS};
use crate::parallel::Counts;
use crate::readings::Readings;
use crate::slot_times::CASES;

macro_rules! events {
    ($($(#[$doc:meta])* $name:ident,)*) => {
        /// An edge or a move that the lists must reach.
        #[derive(Debug, Clone, Copy, PartialEq, Eq)]
        pub enum Event { $($(#[$doc])* $name,)* }

        /// All of them, in order.
        pub const EVENTS: &[Event] = &[$(Event::$name,)*];
    };
}

events! {
    /// The first cell brought a rate above ICR down.
    FirstMove,
    /// More than ADTF had passed, and the rate came down.
    IdleMove,
    /// A forward cell at exactly ADTF, with a rate above ICR.
    AdtfExact,
    /// A forward cell a nanosecond after ADTF, with a rate above ICR.
    AdtfPassed,
    /// CRM unanswered cells brought the rate down.
    UnansweredMove,
    /// A forward cell with CRM unanswered cells exactly.
    CrmExact,
    /// A forward cell with one unanswered cell less than CRM.
    CrmLessOne,
    /// CRM was reached, and CDF is zero.
    CdfZero,
    /// Idle and unanswered, both at one forward cell.
    IdleAndUnanswered,
    /// Feedback raised the rate.
    FeedbackUp,
    /// NI alone left the rate as it was.
    FeedbackUnchanged,
    /// CI cut the rate.
    FeedbackCut,
    /// ER limited the rate.
    FeedbackEr,
    /// ER limited it although CI was 1.
    FeedbackErUnderCi,
    /// The minimum limited the rate.
    FeedbackMcr,
    /// The peak limited the rate.
    FeedbackPcr,
    /// A backward cell with BN 1 left unanswered cells.
    BnLeaves,
    /// A backward cell with BN 0 answered unanswered cells.
    BnAnswers,
    /// A forward cell because of Nrm, within Trm.
    NrmForward,
    /// No forward cell at k = Nrm - 2, within Trm.
    NrmLessOne,
    /// A forward cell at exactly Trm.
    TrmExact,
    /// No forward cell one nanosecond before Trm.
    TrmLessOne,
    /// A forward cell because of Trm with nothing waiting.
    TrmAlone,
    /// Two first cells were ready at the same instant.
    TieFirst,
    /// Two later cells were ready at the same instant.
    TieLater,
    /// A tie went to the lower name although another of its connections had a lower VCI.
    TiePaths,
    /// A slot at exactly the earliest ready instant.
    ReadyExact,
    /// An idle slot a nanosecond before the earliest ready instant.
    ReadyLessOne,
    /// A turned cell was sent before waiting data.
    TurnedFirst,
    /// Data was sent while a second turned cell waited.
    TurnedSecond,
    /// A second turned cell was sent, no data waiting.
    TurnedAlone,
    /// A turned cell was sent that is not a made one, by the answer.
    SentTurned,
    /// One was sent that is, by the answer.
    SentMade,
    /// A waiting turned cell was replaced.
    TurnedReplaced,
    /// A forward cell was turned under a saved EFCI.
    MarkEfci,
    /// A forward cell was turned under level 1.
    MarkLevelOne,
    /// A forward cell was turned under level 2.
    MarkLevelTwo,
    /// A forward cell was received with a mark and turned without a new one.
    MarkKept,
    /// A turned cell had CI 1 only because the one that it replaced had it.
    Carried,
    /// A turned cell replaced one whose CI was carried so, and carried it on.
    CarriedTwice,
    /// CI was carried while a made cell waited.
    CarriedBesideMade,
    /// CI was carried from a cell with NI 1, and NI was not.
    CarriedNiLost,
    /// A turned cell replaced one with NI 1, and had NI 0.
    NiLost,
    /// A cell was turned without CI after one with CI had been sent.
    UnmarkedAfterSent,
    /// A cell was turned without CI while one with CI waited on another
    /// connection.
    UnmarkedElsewhere,
    /// A cell was turned without CI while a made one with CI waited.
    UnmarkedBesideMade,
    /// A data cell cleared a saved EFCI.
    EfciCleared,
    /// A closed address was opened again.
    Reopened,
    /// A closed address with data, a backward cell or unanswered cells on it was
    /// opened again.
    ReopenedLoaded,
    /// The last free leaf was taken.
    Full,
    /// A slot or an open at 2^62.
    TimeMax,
    /// A cell was sent at 2^62.
    SentAtTimeMax,
    /// A cell was made at level 1.
    MadeLevelOne,
    /// A cell was made at level 2.
    MadeLevelTwo,
    /// A cell was made at level 1, the saved EFCI being 1.
    MadeUnderEfci,
    /// A cell was made exactly 100 ms after the last.
    MadeExact,
    /// A making was refused a nanosecond less than 100 ms after the last.
    MadeLessOne,
    /// A cell was made before the first cell of its connection.
    MadeBeforeFirst,
    /// The first cell of a connection was sent, nothing but a made cell waiting.
    MadeStarts,
    /// A waiting made cell was replaced.
    MadeReplaced,
    /// A cell was made while a turned one waited.
    MadeBesideTurned,
    /// A cell was made at level 1 while a turned one with CI 1 waited.
    MadeBesideMarked,
    /// A forward cell was turned while a made one waited.
    TurnedBesideMade,
    /// A turned cell was sent while a made one waited.
    TurnedBeforeMade,
    /// A made cell was sent before waiting data.
    MadeFirst,
    /// Data was sent while a made cell waited, a backward one having been sent
    /// since the last forward cell.
    MadeSecond,
    /// A made cell was sent as the second backward one, no data waiting.
    MadeAlone,
    /// A made cell was sent at another level than that of its making.
    MadeLevelChanged,
    /// A making on an address that was closed.
    MadeClosed,
    /// A cell was made on an address that was opened anew, less than 100 ms after one
    /// that was made before its close.
    MadeReopened,
    /// An open or a slot was refused for its time, which was only before that of
    /// a making.
    MadeTimeCounts,
    /// A connection was opened with an initial rate of 0.
    OpenedAtZero,
    /// A slot passed over a connection with rate 0 on which something waited, before
    /// its first cell.
    ZeroBeforeFirst,
    /// The same after its first cell.
    ZeroWaits,
    /// A slot passed over one with rate 0 at k = Nrm - 1, nothing waiting.
    ZeroAtNrm,
    /// A slot passed over one with rate 0 at k >= 2, after Trm, nothing waiting.
    ZeroAtTrm,
    /// The first cell brought the rate down to an initial rate of 0.
    FirstToZero,
    /// More than ADTF had passed, and the rate came down to an initial rate of 0.
    IdleToZero,
    /// CRM unanswered cells brought the rate down to 0.
    UnansweredToZero,
    /// An ER of 0 brought the rate down to 0.
    ErToZero,
    /// CI brought the rate down to 0, ER being above 0.
    CutToZero,
    /// Feedback raised a rate of 0.
    RoseFromZero,
    /// Feedback with CI or NI and an ER above 0 left a rate of 0.
    MarkKeepsZero,
    /// Feedback without marks and with an ER above 0 left a rate of 0, since PCR / 2^r
    /// is below one unit.
    NoIncrease,
    /// A connection sent a cell after its rate had been 0.
    SentAfterZero,
    /// A cell was sent at a rate below one cell per second.
    SentBelowOne,
    /// A forward cell was sent whose minimum of 0 was opened with another code than
    /// 0x0000.
    MinimumCoded,
    /// An out-of-rate cell at rate 0.
    OutsideAtZero,
    /// One at a rate above 0 and below one cell per second.
    OutsideBelowOne,
    /// One before the first cell of its connection.
    OutsideBeforeFirst,
    /// One before the first cell, with a rate above ICR, which it leaves.
    OutsideAboveIcr,
    /// One with CRM unanswered cells, for which a slot's forward cell would cut the
    /// rate.
    OutsideUnanswered,
    /// One on a connection that is not ready, nothing waiting.
    OutsideAlone,
    /// One exactly 100 ms after the last.
    OutsideExact,
    /// One was refused a nanosecond less than 100 ms after the last.
    OutsideLessOne,
    /// One on an address that was opened anew, less than 100 ms after one before its close.
    OutsideReopened,
    /// One was refused on an address that was closed.
    OutsideClosed,
    /// An open, a slot or a making was refused for its time, which was only before
    /// that of an out-of-rate cell.
    OutsideTimeCounts,
    /// A VCI was opened that is open on another VPI.
    OpenedBeside,
    /// A pair was unknown whose VCI is open on another VPI.
    OtherPath,
    /// The same of a received cell.
    ReceivedOtherPath,
    /// A write was refused for its VPI alone.
    WritePath,
    /// A cell with a GFC other than 0 was accepted.
    GfcIgnored,
    /// A received cell with the reserved bit in a rate code was refused for it although
    /// its connection is not open.
    ReservedUnknown,
    /// One was refused for its CRC-10, which is looked at before.
    ReservedCrc,
    /// One was refused for its protocol, which is looked at before.
    ReservedProtocol,
    /// A data cell was accepted whose octets 8, 10 or 12 begin with that bit.
    ReservedData,
    /// An open with the reserved bit was refused for its VCI under 32.
    ReservedLowVci,
    /// One was refused for the bit although a parameter or its address is out of range.
    ReservedBesideRange,
    /// One was refused for the bit although another code has more than 16 bits.
    ReservedBesideWide,
    /// An open was refused for a code of more than 16 bits that has bit 15 set, the others
    /// having it clear.
    WideReserved,
    /// A code of bit 14 alone was accepted in an open.
    NzOpened,
    /// The same in a received RM cell.
    NzReceived,
    /// A contract was exported whose allowed rate is not its initial rate.
    ExportedMoved,
    /// One without a minimum.
    ExportedNoMinimum,
    /// One on an address that was closed before.
    ExportedReopened,
    /// 0 was imported.
    ImportZero,
    /// Minus 0 was imported.
    ImportMinusZero,
    /// 1 was imported.
    ImportOne,
    /// A code rate was imported.
    ImportExact,
    /// The next double above a code rate.
    ImportAbove,
    /// The next double below one.
    ImportBelow,
    /// A double above the largest code rate.
    ImportPastLargest,
    /// The last double below 2^32.
    ImportLast,
    /// What is not a number was refused.
    ImportNotANumber,
    /// The same with its sign set.
    ImportMinusNotANumber,
    /// Infinity was refused.
    ImportInfinite,
    /// Minus infinity was refused.
    ImportMinusInfinite,
    /// A double was refused that would be imported without its sign.
    ImportNegative,
    /// A subnormal double was refused.
    ImportSubnormal,
    /// The least double above 0 was refused.
    ImportLeast,
    /// The last double below 1 was refused.
    ImportBelowOne,
    /// 2^32 was refused.
    ImportTwoTo32,
    /// A double above it was refused.
    ImportLarge,
    /// A backward cell raised the rate.
    ChangeRise,
    /// One lowered it.
    ChangeFall,
    /// One left it, after one that had changed it.
    ChangeNothing,
    /// One with BN 1 changed it.
    ChangeBn,
    /// One raised it from minimum to peak.
    ChangeToPeak,
    /// One lowered it from peak to minimum.
    ChangeToMinimum,
    /// The first cell moved the rate, by another amount than the last backward cell.
    ChangeKeptFirst,
    /// The same after more than ADTF.
    ChangeKeptIdle,
    /// The same because of unanswered cells.
    ChangeKeptUnanswered,
    /// A cell was made on a connection whose last backward cell changed the rate.
    ChangeKeptMade,
    /// An out-of-rate cell of such a connection was written.
    ChangeKeptOutside,
    /// A cell to such a connection was refused.
    ChangeKeptRefused,
    /// The address of such a connection was opened anew.
    ChangeReopened,
    /// A capacity was shared among no demands.
    ShareNone,
    /// One among 1,024.
    ShareMost,
    /// One with a demand of the largest rate.
    ShareLargest,
    /// The capacity was exactly the sum of the demands.
    ShareSum,
    /// It was one less.
    ShareLessOne,
    /// The share was 0.
    ShareZero,
    /// The share was no less than some demand, and less than another.
    ShareAboveSome,
    /// The share did not use up the capacity.
    ShareRest,
    /// Over 1,024 demands were refused although one of them is too large.
    DemandsFirst,
    /// 1,025 demands were refused.
    DemandsPastMost,
    /// A demand of one above the largest rate was refused.
    DemandPastLargest,
    /// The last of several demands was refused.
    DemandLast,
    /// Over 1,024 demands were refused although the cell is wrong.
    DemandsBeforeCell,
    /// A demand was refused although the cell is wrong.
    DemandBeforeCell,
    /// A limit above the largest rate.
    LimitPastLargest,
    /// A data cell passed under a limit.
    PassedData,
    /// A forward cell with an ER above the limit passed.
    PassedForward,
    /// A backward cell passed without a limit.
    PassedNoLimit,
    /// The same with an ER of rate 0 and another code than 0x0000.
    PassedNoLimitCoded,
    /// A limit lowered ER.
    PassedLowered,
    /// It lowered ER to the code below it.
    PassedRounded,
    /// A limit was exactly ER.
    PassedEqual,
    /// A limit was above ER.
    PassedKept,
    /// The same with an ER of rate 0 and another code than 0x0000.
    PassedCoded,
    /// A limit lowered ER in a cell with GFC, CLP and reserved bits set.
    PassedOtherBits,
    /// A trace without a cell was judged.
    TraceNoCell,
    /// A later cell came exactly a gap after the one before.
    TraceGapExact,
    /// One came a nanosecond earlier.
    TraceGapLessOne,
    /// A forward cell came at exactly Trm.
    TraceTrmExact,
    /// Another cell came a nanosecond before Trm.
    TraceTrmLessOne,
    /// Another cell came at Trm or later, fewer than two having gone.
    TraceTrmTooFew,
    /// A forward cell came because of Nrm, within Trm.
    TraceNrm,
    /// Another cell came at k = Nrm - 2, within Trm.
    TraceNrmLessOne,
    /// The times of a trace sum to 2^62.
    TraceTimeMax,
    /// The first cell had a rate of 0, the least or the largest.
    TraceFirstRate,
    /// The first cell was not forward.
    TraceFirstKind,
    /// A later cell had a rate of 0.
    TraceRateZero,
    /// A forward cell came that was not due.
    TraceForwardEarly,
    /// Another cell came where a forward one was due.
    TraceForwardMissing,
    /// A forward cell came that was not due, and early.
    TraceGapBeforeKind,
    /// Two or more cells broke a rule.
    TraceBrokenTwice,
    /// A trace was empty.
    TraceEmpty,
    /// A trace had n alone.
    TraceHalfHead,
    /// A trace ended inside a record.
    TraceCut,
    /// A number had a last group of 0.
    TraceLastGroupZero,
    /// A number had another tenth octet than 1.
    TraceTenthOctet,
    /// n was out of range.
    TraceN,
    /// The Trm number was.
    TraceTrm,
    /// The first time was not 0.
    TraceFirstTime,
    /// A kind was out of range.
    TraceKind,
    /// A rate was.
    TraceRate,
    /// The sum of the times was.
    TraceSum,
    /// A number was out of form and out of range.
    TraceFormBeforeRange,
    /// A number was out of range, and a later one out of form.
    TraceRangeThenForm,
    /// A number was out of form, and a later one out of range.
    TraceFormThenRange,
    /// A cell broke a rule, and a refusal followed.
    TraceRefusedAfterBroken,
    /// A connection was closed with data on it.
    ClosedWaiting,
    /// One with 65,535 data cells on it.
    ClosedFull,
    /// One whose data had all been sent.
    ClosedSent,
    /// One of whose data nothing had been sent, though a forward cell had.
    ClosedUnsent,
    /// One with a turned or a made cell on it, but no data.
    ClosedBackward,
    /// One to which an offer had been refused for its cells.
    ClosedRefused,
    /// An address was closed with data on it for the second time.
    ClosedAgain,
    /// A path was opened on a VPI with an open channel.
    PathBesideChannel,
    /// A path was opened again.
    PathReopened,
    /// A path was closed with data on two or more members.
    PathClosedLoaded,
    /// One was closed with members, but no data.
    PathClosedEmpty,
    /// A data cell with the name of an open path was refused.
    PathData,
    /// More than 65,535 cells wait on the members of a path.
    PathPastFull,
    /// The 256th member was added.
    MembersMax,
    /// A pair was added that had been removed.
    MemberAgain,
    /// One that had been a channel.
    MemberAfterChannel,
    /// Exactly 65,535 cells wait on a member.
    MemberFull,
    /// A pair was refused as a member already although there are 256.
    MemberFirst,
    /// One was refused as a channel although there are 256.
    ChannelFirst,
    /// A member was removed with data on it, more waiting on others.
    RemovedWaiting,
    /// One with all the data of its path.
    RemovedLast,
    /// One without data, some waiting on others.
    RemovedEmpty,
    /// The first data of a path was not that of its lowest member.
    TurnFirst,
    /// A later turn was that of a higher member.
    TurnNext,
    /// One was that of a lower member.
    TurnRound,
    /// One was that of the same member, others having no data.
    TurnAgain,
    /// One passed over a member without data on the way up.
    TurnPasses,
    /// The member served last had been removed.
    TurnRemoved,
    /// A data cell of a member brought a mark for its path.
    MemberMarks,
    /// One took away the mark that another member's had brought.
    MemberClears,
    /// A connection was opened with a TBE that Nrm divides.
    CrmWhole,
    /// One with a TBE that is one more than such a number.
    CrmRounded,
    /// One with the largest TBE.
    TbeMost,
    /// One with the largest FRTT.
    FrttMost,
    /// One without a round trip.
    IcrWithoutTrip,
    /// One whose initial rate was lowered, to more than its minimum.
    IcrLowered,
    /// One whose initial rate was lowered to its minimum, which is above 0.
    IcrToMinimum,
    /// One whose round trip allows more than its initial rate.
    IcrKept,
    /// One whose round trip allows exactly its initial rate.
    IcrEqual,
    /// The given initial rate was exported of one with a lower one.
    ExportedGiven,
    /// An open was refused for a range although TBE is out of range.
    RangeBeforeTbe,
    /// One was refused for TBE although FRTT is out of range.
    TbeBeforeFrtt,
    /// One was refused for FRTT although the time is over 2^62.
    FrttBeforeTime,
    /// Exactly 65,535 cells wait after an offer.
    OfferFills,
    /// An offer of nothing to a full connection.
    OfferNothing,
}

/// The greatest number of a refusal.
const REFUSAL_MAX: usize = {
    let all = abr::Refusal::ALL;
    all[all.len() - 1].number() as usize
};

/// Counts of all that was reached.
#[derive(Debug, Clone)]
pub struct Coverage {
    /// Calls made.
    pub calls: u64,
    /// Allowed rates compared.
    pub rates: u64,
    /// Cells recorded of connections, whose traces were judged.
    pub recorded: u64,
    /// By sort of call and refusal number; 0 means accepted.
    pub outcomes: [[u64; REFUSAL_MAX + 1]; SORTS.len()],
    /// By kind of slot; 0 is idle.
    pub kinds: [u64; 4],
    /// By sort of call and comparisons, of accepted calls.
    pub comparisons: [[u64; COMPARISONS_MAX as usize + 1]; SORTS.len()],
    /// By sort of call, of those refused for a pair out of range that would be an open
    /// one if its numbers were cut, and if they were added.
    pub out_of_range: [[u64; 2]; SORTS.len()],
    /// By sort of call, of those on a member refused for a VCI over 65,535 with the number
    /// that is due: on an open path, on a VPI without one, and on a VPI over 255 that would
    /// be an open path's if it were cut.
    pub past_vci: [[u64; 3]; SORTS.len()],
    /// By sort of call and place of the code, of those refused for the reserved bit that
    /// one of three rate codes alone has.
    pub reserved: [[u64; 3]; SORTS.len()],
    /// By sort of call, of those accepted for the name of a path, and of those refused for
    /// the pair of a member.
    pub on_path: [u64; SORTS.len()],
    pub on_member: [u64; SORTS.len()],
    /// By damaged octet of a refused cell.
    pub damaged: [u64; 53],
    /// After each call, by the next ready instant: never, before the last accepted time, at
    /// it, after it, or even after 2^62.
    pub nexts: [u64; 5],
    /// Times to be passed to a slot, by what decides them (`slot_times::CASES`), and how many
    /// of them were tried by slots.
    pub slot_times: [u64; CASES.len()],
    pub tried: u64,
    /// What was read of the table.
    pub readings: Readings,
    events: [u64; EVENTS.len()],
}

impl Default for Coverage {
    fn default() -> Self {
        Coverage {
            calls: 0,
            rates: 0,
            recorded: 0,
            outcomes: [[0; REFUSAL_MAX + 1]; SORTS.len()],
            kinds: [0; 4],
            comparisons: [[0; COMPARISONS_MAX as usize + 1]; SORTS.len()],
            out_of_range: [[0; 2]; SORTS.len()],
            past_vci: [[0; 3]; SORTS.len()],
            reserved: [[0; 3]; SORTS.len()],
            on_path: [0; SORTS.len()],
            on_member: [0; SORTS.len()],
            damaged: [0; 53],
            nexts: [0; 5],
            slot_times: [0; CASES.len()],
            tried: 0,
            readings: Readings::default(),
            events: [0; EVENTS.len()],
        }
    }
}

/// The refusals that each sort of call has, in the order of [`SORTS`].
const REFUSALS: [&[Refusal]; SORTS.len()] = {
    use Refusal::*;
    [
        &[
            Range,
            Time,
            LowVci,
            AlreadyOpen,
            Full,
            TimeBackward,
            ReservedBit,
            AlreadyMember,
            Tbe,
            Frtt,
        ],
        &[NotOpen],
        &[
            Length,
            HeaderCheck,
            PayloadType,
            Crc,
            Protocol,
            NotOpen,
            ReservedBit,
        ],
        &[NotOpen, TooMuchData, NotAMember],
        &[TooLarge],
        &[Length, Time, TimeBackward],
        &[Time, NotOpen, TimeBackward, NotCongested, MadeTooSoon],
        &[Length, Time, NotOpen, TimeBackward, OutOfRateTooSoon],
        &[
            Range,
            Time,
            AlreadyOpen,
            Full,
            TimeBackward,
            ReservedBit,
            Tbe,
            Frtt,
        ],
        &[LowVci, NotOpen, AlreadyOpen, MembersFull, AlreadyMember],
        &[NotOpen, TooMuchData, NotAMember],
        &[NotOpen, NotAMember],
        &[NotOpen],
        &[NotOpen],
        &[Length, Range],
        &[Length, HeaderCheck, PayloadType, Crc, Protocol, ReservedBit],
        &[TooLarge],
        &[Range, ReservedBit],
        &[Double],
        &[TooManyDemands, DemandTooLarge],
        &[Length, HeaderCheck, PayloadType, Crc, Protocol, ReservedBit],
        &[
            Length,
            HeaderCheck,
            PayloadType,
            Crc,
            Protocol,
            ReservedBit,
            TooManyDemands,
            DemandTooLarge,
        ],
        &[TraceNumber, TraceEnd, TraceRange],
        &[],
    ]
};

/// The sorts of call that name a connection or a member by its two numbers, or a path by
/// one, by their places in [`SORTS`].
const NAMING: [usize; 11] = [0, 1, 3, 6, 7, 8, 9, 10, 11, 12, 13];

/// Those on a member, with the refusal of a VCI over 65,535 on an open path: adding, offer and
/// removal.
const ON_MEMBERS: [(usize, Refusal); 3] = [
    (9, Refusal::NotOpen),
    (10, Refusal::NotAMember),
    (11, Refusal::NotAMember),
];

/// Those that read three rate codes: open, receive, open of a path, read, limit and port.
const READING: [usize; 6] = [0, 2, 8, 15, 20, 21];

/// Those that take the name of a path as that of a channel: close, receive, make,
/// out-of-rate cell, ACR and export.
const TAKING_PATHS: [usize; 6] = [1, 2, 6, 7, 12, 13];

/// Those that take a member's pair as that of no connection: the same, and offer.
const REFUSING_MEMBERS: [usize; 7] = [1, 2, 3, 6, 7, 12, 13];

impl Coverage {
    /// Counts a call and its outcome.
    pub fn count(&mut self, call: &Call, outcome: &Outcome) {
        self.calls += 1;
        let number = outcome.err().map_or(0, Refusal::number);
        self.outcomes[call.sort()][number as usize] += 1;
        if let Ok(answer) = outcome {
            self.comparisons[call.sort()][answer.comparisons() as usize] += 1;
        }
    }

    /// Counts a call that was refused for a pair out of range, by whether that pair
    /// would be an open one if its numbers were cut, and if they were added.
    pub fn count_out_of_range(&mut self, call: &Call, like_open: [bool; 2]) {
        let counts = &mut self.out_of_range[call.sort()];
        for (count, like) in counts.iter_mut().zip(like_open) {
            *count += u64::from(like);
        }
    }

    /// Counts a call that was refused for a VCI over 65,535, if it is one on a member, by
    /// whether its path is open, is not, and would be if its VPI were cut.
    pub fn count_past_vci(&mut self, call: &Call, refusal: Refusal, path: [bool; 3]) {
        let mut sorts = ON_MEMBERS.into_iter();
        let Some((sort, on_open)) = sorts.find(|(sort, _)| *sort == call.sort()) else {
            return;
        };
        let counts = self.past_vci[sort].iter_mut();
        let due = [on_open, Refusal::NotOpen, Refusal::NotOpen];
        for ((count, is), due) in counts.zip(path).zip(due) {
            *count += u64::from(is && refusal == due);
        }
    }

    /// Counts a call that was refused for the reserved bit, if one of its three rate codes
    /// alone has it.
    pub fn count_reserved(&mut self, call: &Call, codes: [bool; 3]) {
        if codes.into_iter().filter(|has| *has).count() != 1 {
            return;
        }
        let counts = &mut self.reserved[call.sort()];
        for (count, has) in counts.iter_mut().zip(codes) {
            *count += u64::from(has);
        }
    }

    /// Counts a call that was accepted for the name of a path.
    pub fn count_path(&mut self, call: &Call) {
        self.on_path[call.sort()] += 1;
    }

    /// Counts a call that was refused for the pair of a member.
    pub fn count_member(&mut self, call: &Call) {
        self.on_member[call.sort()] += 1;
    }

    /// Counts the next ready instant after a call, the last accepted time being `last`.
    pub fn count_next(&mut self, next: Option<u64>, last: u64) {
        let place = match next {
            None => 0,
            Some(next) if next < last => 1,
            Some(next) if next == last => 2,
            Some(next) if next <= TIME_MAX => 3,
            Some(_) => 4,
        };
        self.nexts[place] += 1;
    }

    /// Adds the counts of times to be passed to a slot.
    pub fn add_slot_times(&mut self, decided: &[u64; CASES.len()], tried: u64) {
        for (to, from) in self.slot_times.iter_mut().zip(decided) {
            *to += from;
        }
        self.tried += tried;
    }

    /// Counts an event if it happened.
    pub fn reach(&mut self, event: Event, happened: bool) {
        self.events[event as usize] += u64::from(happened);
    }

    /// How often an event was reached.
    pub fn reached(&self, event: Event) -> u64 {
        self.events[event as usize]
    }

    /// What was reached fewer than `least` times, by name.
    pub fn missing(&self, least: u64) -> Vec<String> {
        let counts = [
            self.of_calls(),
            self.of_arguments(),
            self.readings.counts(),
            self.of_edges(),
        ];
        let few = counts.into_iter().flatten().filter(|few| few.0 < least);
        few.map(|(count, name)| format!("{name}: {count}"))
            .collect()
    }

    /// The counts of outcomes that must be reached, by name.
    fn of_calls(&self) -> Vec<(u64, String)> {
        let mut counts = Vec::new();
        for (sort, refusals) in REFUSALS.iter().enumerate() {
            let outcomes = &self.outcomes[sort];
            counts.push((outcomes[0], format!("{} accepted", SORTS[sort])));
            for number in refusals.iter().copied().map(Refusal::number) {
                let name = format!("{} refused {number}", SORTS[sort]);
                counts.push((outcomes[number as usize], name));
            }
        }
        counts
    }

    /// Those of arguments of some sorts of call.
    fn of_arguments(&self) -> Vec<(u64, String)> {
        let mut counts = Vec::new();
        let mut add = |count: u64, sort: usize, what: &str| {
            counts.push((count, format!("{} {what}", SORTS[sort])));
        };
        for sort in NAMING {
            let [cut, added] = self.out_of_range[sort];
            add(cut, sort, "of a pair that is one if cut");
            add(added, sort, "of a pair that is one if added");
        }
        for (sort, _) in ON_MEMBERS {
            let [open, closed, past] = self.past_vci[sort];
            add(open, sort, "of a VCI over 65,535 on an open path");
            add(closed, sort, "of a VCI over 65,535 on no path");
            add(past, sort, "of a VCI over 65,535 on a VPI over 255");
        }
        for sort in READING {
            for (place, count) in self.reserved[sort].iter().enumerate() {
                add(*count, sort, &format!("with the bit in code {place} alone"));
            }
        }
        for sort in TAKING_PATHS {
            add(self.on_path[sort], sort, "of a path");
        }
        for sort in REFUSING_MEMBERS {
            add(self.on_member[sort], sort, "refused for a member");
        }
        counts
    }

    /// Those of kinds of cell, damaged octets and events.
    fn of_edges(&self) -> Vec<(u64, String)> {
        let kinds = self.kinds.iter().enumerate();
        let kinds = kinds.map(|(kind, count)| (*count, format!("slot of kind {kind}")));
        let octets = self.damaged.iter().zip(1..);
        let octets = octets.map(|(count, octet)| (*count, format!("damaged octet {octet}")));
        let events = EVENTS.iter();
        let events = events.map(|event| (self.reached(*event), format!("{event:?}")));
        kinds.chain(octets).chain(events).collect()
    }

    /// The events with their counts, in one line.
    pub fn summary(&self) -> String {
        let events: Vec<String> = EVENTS
            .iter()
            .map(|event| format!("{event:?} {}", self.reached(*event)))
            .collect();
        format!(
            "{} calls, {} rates compared, {} cells recorded; slots idle {}, forward {}, turned {}, data {}; next {:?}; slot times {:?}, {} tried; read {:?}; {}",
            self.calls,
            self.rates,
            self.recorded,
            self.kinds[0],
            self.kinds[1],
            self.kinds[2],
            self.kinds[3],
            self.nexts,
            self.slot_times,
            self.tried,
            self.readings.met,
            events.join(", ")
        )
    }
}

impl Counts for Coverage {
    fn add(&mut self, other: &Coverage) {
        let add = |to: &mut [u64], from: &[u64]| {
            to.iter_mut().zip(from).for_each(|(to, from)| *to += from);
        };
        self.calls += other.calls;
        self.rates += other.rates;
        self.recorded += other.recorded;
        for (to, from) in self.outcomes.iter_mut().zip(&other.outcomes) {
            add(to, from);
        }
        for (to, from) in self.comparisons.iter_mut().zip(&other.comparisons) {
            add(to, from);
        }
        for (to, from) in self.out_of_range.iter_mut().zip(&other.out_of_range) {
            add(to, from);
        }
        for (to, from) in self.past_vci.iter_mut().zip(&other.past_vci) {
            add(to, from);
        }
        for (to, from) in self.reserved.iter_mut().zip(&other.reserved) {
            add(to, from);
        }
        add(&mut self.kinds, &other.kinds);
        add(&mut self.on_path, &other.on_path);
        add(&mut self.on_member, &other.on_member);
        add(&mut self.damaged, &other.damaged);
        add(&mut self.nexts, &other.nexts);
        self.add_slot_times(&other.slot_times, other.tried);
        self.readings.add(&other.readings);
        add(&mut self.events, &other.events);
    }
}
