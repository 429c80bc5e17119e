//! The traces that are judged (document 02, L11). Both pass, so that every cell is judged.

use abr::{Kind, Params, Sent, COMPARISONS_MAX, RATE_MAX};
use abr_tools::record::Recorder;

/// What a trace is like.
#[derive(Debug, Clone, Copy, PartialEq, Eq)]
pub enum Numbers {
    /// About 100,000 cells per second, seven octets each, every 32nd cell forward.
    Usual,
    /// 2^50 nanoseconds apart at the largest rate, fifteen octets each, every third cell
    /// forward.
    Long,
}

/// The octets of a trace of so many cells.
pub fn octets(cells: u32, numbers: Numbers) -> Vec<u8> {
    const CODE: u32 = 0x6121;
    let (rate, step, forward) = match numbers {
        Numbers::Usual => {
            let rate = abr_reference::rate_of(CODE);
            (rate, abr_reference::gap(rate).expect("a rate above 0"), 32)
        }
        Numbers::Long => (RATE_MAX, 1 << 50, 3),
    };
    let mut recorder = Recorder::new(&Params::house(CODE, CODE, CODE));
    for cell in 0..cells {
        let kind = match cell % forward {
            0 => Kind::Forward,
            _ => Kind::Data,
        };
        let sent = Sent {
            vpi: 0,
            vci: 32,
            leaf: 0,
            kind,
            made: false,
            acr: rate,
            acr_before: rate,
            comparisons: COMPARISONS_MAX,
        };
        recorder.sent(u64::from(cell) * step, &sent);
    }
    recorder.octets()
}

/// Both sides judge them, and they have the octets that they are said to have.
#[test]
fn the_traces_pass() {
    for (numbers, each) in [(Numbers::Usual, 7), (Numbers::Long, 15)] {
        let octets = octets(256, numbers);
        assert_eq!(abr::judge(&octets), Ok(abr::Verdict::Passes));
        assert_eq!(abr_reference::judge::judge(&octets), Ok(None));
        assert_eq!((octets.len() + 128) / 256, each); // rounded
    }
}
