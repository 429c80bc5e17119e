//! Addresses (document 02, L6): pairs that are not open, though they are like one
//! that is.

use abr::ffi::abr_rm;
use abr::{CELL_OCTETS, VCI_MAX, VPI_MAX};
use abr_convert::reference_rm;
use abr_reference::{Address, Refusal};

use super::Observation;
use crate::call::Call;
use crate::coverage::{Coverage, Event};

impl Observation {
    /// Whether the VCI of an address is open on another VPI.
    pub(super) fn elsewhere(&self, at: Address) -> bool {
        let mut open = self.connections.keys();
        open.any(|other| other.vci == at.vci && other.vpi != at.vpi)
    }

    /// A call was refused: it may have named a pair that is not open, but would be if
    /// its path were not looked at, or if a number out of its range were cut or added
    /// to the other.
    pub(super) fn refused_address(&self, call: &Call, refusal: Refusal, coverage: &mut Coverage) {
        if let (Call::WriteRm { rm, .. }, Refusal::Range) = (call, refusal) {
            let on_path_0 = reference_rm(&abr_rm { vpi: 0, ..*rm });
            let written = abr_reference::write_rm(&on_path_0, &mut [0; CELL_OCTETS]);
            coverage.reach(Event::WritePath, written.is_ok());
        }
        let (Some(at), Refusal::Range | Refusal::NotOpen | Refusal::NotAMember) =
            (call.address(), refusal)
        else {
            return;
        };
        self.past_vci(call, at, refusal, coverage);
        if at.fits() {
            let unknown = refusal == Refusal::NotOpen && self.elsewhere(at);
            coverage.reach(Event::OtherPath, unknown);
            let received = matches!(call, Call::Receive { .. });
            coverage.reach(Event::ReceivedOtherPath, unknown && received);
            return;
        }
        let cut = Address::new(at.vpi & VPI_MAX, at.vci & VCI_MAX);
        let added = at.vpi.wrapping_mul(65_536).wrapping_add(at.vci);
        let sum = Address::new(added >> 16, added & VCI_MAX);
        let like_open = [cut, sum].map(|other| self.finds(call, other));
        coverage.count_out_of_range(call, like_open);
    }

    /// A call on a member was refused: it may have named a VCI out of its range, which is no
    /// member of a path that is open, and unknown where none is (document 02, L13).
    fn past_vci(&self, call: &Call, at: Address, refusal: Refusal, coverage: &mut Coverage) {
        if at.vci <= VCI_MAX {
            return;
        }
        let cut = self.path_is_open(at.vpi & VPI_MAX);
        let (open, fits) = (self.path_is_open(at.vpi), at.vpi <= VPI_MAX);
        coverage.count_past_vci(call, refusal, [open, fits && !open, !fits && cut]);
    }

    /// Whether a call would find at another pair what it names: a member, the path of one,
    /// or a connection.
    fn finds(&self, call: &Call, at: Address) -> bool {
        match call {
            Call::Add { .. } => self.path_is_open(at.vpi),
            Call::OfferMember { .. } | Call::Remove { .. } => self.members.contains_key(&at),
            _ => self.connections.contains_key(&at),
        }
    }
}
