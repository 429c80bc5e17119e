//! The test cases and state machines of the source papers, on the library and
//! on the reference beside it. Both must agree, and both must give the value
//! that the paper or, where they depart from the paper, documents 01 and 02 give.
//! Every expected number was computed by hand; a comment says how.
//!
//! # Source document 000: seven test cases (`cases`)
//!
//! Huang, "Estelle Verification of ATM Available Bit Rate (ABR) Control
//! Protocol", chapter 4. Two stations in a loop, data always ready at both, a
//! step of time of 0.02 s. Its constants, section 4.8, and those used here:
//!
//! | constant | paper | here | why |
//! |---|---|---|---|
//! | PCR, ICR, MCR | 1,000, 200, 100 | the same, in cells/s | each has a rate code of its own |
//! | ER of a forward cell | 1,000 | PCR | the engine writes PCR; it is 1,000 |
//! | Nrm, Mrm, CRM | 16, 2, 3 | the same | |
//! | RIF, RDF, CDF | 0.1 | 1/8 | only powers of two; 1/8 is the nearest |
//! | ADTF | 2 s; 0.18 s in 4 and 5 | the same | 200 and 18 steps of 10 ms |
//! | Trm | 0.2 s; 2 s in 3 | 0.1 s | the longest there is |
//!
//! 1. *No congestion*: the rate rises from 200 to 1,000 and no further. Here
//!    by 125 and not by 100 at a time.
//! 2. *Congestion*: the receiving station's internal congestion, here level 2,
//!    lowers the rate from 1,000 to 100 and no further. Here by an eighth and
//!    not by a tenth at a time, rounded down to whole units, where the paper
//!    has real numbers. The paper's congestion sets CI or NI or lowers ER, and
//!    nothing says which; document 01 sets CI at level 2 and NI at level 1, for
//!    a whole engine, so each station is an engine of its own. The paper also
//!    proposes 1 and 2 combined; that is the third test.
//! 3. *Forward cells*: after two cells once Trm has passed, or after 15. The
//!    paper saw the first at 0.24 s for Trm 0.2 s, here 0.12 s for 0.1 s. For
//!    the second it lengthens Trm to 2 s, which no Trm number gives; here 15
//!    cells at 200 cells/s take 75 ms and are within Trm 0.1 s.
//! 4. *Idle*: 300 becomes 200 at 0.24 s, past ADTF 0.18 s. All as in the
//!    paper; an ER of 300 limits the rise by 125 to the paper's 300.
//! 5. *Unanswered*: right after case 4, with Y 5, a cut by CDF. The paper
//!    writes Y by hand; here five forward cells stay unanswered, and cells
//!    with BN 1 bring the rate back to 300 without clearing Y. Departure: the
//!    paper's machine tests Y only after an idle move; document 01 tests it
//!    before every later forward cell. Both are checked. The paper's table
//!    says Y > 3, its machine and document 01 say Y >= CRM.
//! 6. *Increase*: a cell without marks raises 200 by PCR x RIF: 325.
//! 7. *Decrease*: right after case 6 a cell with CI lowers by ACR x RDF: from
//!    325, where the paper is at 300.
//!
//! # Source document 001: three state machines
//!
//! Lee and others, "Protocol Specification Using Parameterized Communicating
//! Extended Finite State Machines". It has no numbers; the set above is used.
//!
//! `source_machine`:
//! * T1, start at ICR. Departures: a waiting turned cell starts a connection
//!   too, and the first cell takes min(ACR, ICR), not ICR.
//! * T2, T3: a backward cell clears Y with BN 0 only, and moves the rate with
//!   either.
//! * T4 to T7: the rate by CI, NI and ER. Departure: rounded down.
//! * Both papers say that out-of-rate cells let a source whose ACR is zero learn when
//!   it may rise, or name them, and leave them out. Document 02's L5 has them: the
//!   last test takes a source without a minimum down to 0 and up again.
//!
//! `destination_machine`, with T8 to T12 of the source machine:
//! * T1: the saved EFCI. T2, T3, T5, T6, T8: turning under the saved EFCI and
//!   the congestion level. Departure: the paper clears CI and NI where it sets
//!   no mark; document 01 keeps the marks that the cell was received with.
//!   Where the paper chooses between T5 and T6, the level decides.
//! * T4, T7 are left out by document 01: ER is never reduced on turning.
//! * T9, T10: a backward cell that the destination makes (BN 1), with CI or NI.
//!   Departures of document 02: congestion alone sends nothing, a call makes the
//!   cell; where the paper chooses between T9 and T10, the level decides.
//! * T13, and T12 of the source: a made cell alters no waiting turned cell.
//!   Departure: in place of a queue one made cell waits, the last.
//! * T12, T14, and T8, T9, T10 of the source, are one step: a forward cell
//!   becomes the one waiting cell, replacing any other. T11 of both, which
//!   rewrites the waiting cells and keeps them, is left out. In place of the
//!   paper's two queues one cell waits. Departure of document 02: CI of the
//!   replaced cell stays, where the paper drops it with the cell.
//!
//! `scheduler_machine`:
//! * T1: counts from 0. T2: forward cells by time and by count, CCR = ACR.
//!   Departure: CCR is a code, the greatest not above ACR.
//! * T3, T4, T5: idle, then unanswered. Departures: unanswered also without
//!   idle; CDF may be zero; a forward cell always waits for the gap, which the
//!   paper's T3 to T5 do not ask for.
//! * T6, T7: one turned cell before data, the next when no data waits.

#[path = "sources/cases.rs"]
mod cases;
#[path = "sources/destination_machine.rs"]
mod destination_machine;
#[path = "sources/scheduler_machine.rs"]
mod scheduler_machine;
#[path = "sources/source_machine.rs"]
mod source_machine;
#[path = "sources/station.rs"]
mod station;
