//! The traces of a list's connections (document 02, L11): the cells that each is given a
//! slot for, from its open to its close or to the end of the list.

use std::collections::BTreeMap;

use abr_reference::Address;

use crate::call::{Answer, Call, Outcome};
use crate::trace::Trace;

/// A connection that is open.
struct Recording {
    trace: Trace,
    /// When the last cell was sent; nothing before the first.
    last: Option<u64>,
}

/// What is recorded.
#[derive(Default)]
pub struct Recorder {
    open: BTreeMap<Address, Recording>,
    closed: Vec<(Address, Trace)>,
}

impl Recorder {
    /// A call concerned this address.
    pub fn add(&mut self, call: &Call, outcome: &Outcome, at: Address) {
        match (*call, *outcome) {
            (Call::Open { params, .. } | Call::OpenPath { params, .. }, Ok(_)) => {
                let trace = Trace::new(params.n.into(), params.trm.into());
                self.open.insert(at, Recording { trace, last: None });
            }
            (Call::Close { .. }, Ok(_)) => {
                let closed = self.open.remove(&at);
                self.closed.extend(closed.map(|open| (at, open.trace)));
            }
            (Call::Slot { time, .. }, Ok(Answer::Sent(sent))) if sent.kind > 0 => {
                if let Some(open) = self.open.get_mut(&at) {
                    open.sent(time, sent.kind.into(), sent.acr_before);
                }
            }
            _ => {}
        }
    }

    /// All traces, those of the connections that are open last.
    pub fn traces(self) -> Vec<(Address, Trace)> {
        let open = self.open.into_iter().map(|(at, open)| (at, open.trace));
        self.closed.into_iter().chain(open).collect()
    }
}

impl Recording {
    /// A cell of this kind was sent, the allowed rate before it being this.
    fn sent(&mut self, time: u64, kind: u64, rate: u64) {
        let passed = time - self.last.unwrap_or(time);
        self.trace.push(passed, kind, rate);
        self.last = Some(time);
    }
}
