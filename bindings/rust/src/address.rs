//! The address of a connection.

use std::fmt;

/// The greatest VPI.
pub const VPI_MAX: u32 = 255;
/// The VCI in the name of a path, and in its RM cells.
pub const PATH_VCI: u32 = 6;
/// The least VCI that can be opened.
pub const VCI_MIN: u32 = 32;
/// The greatest VCI that can be opened.
pub const VCI_MAX: u32 = 65_535;

/// A VPI and a VCI, which together name a connection, or a member of a path. Neither is checked
/// here: the calls refuse what is out of range. It is written VPI/VCI.
///
/// ```
/// use abr::{Address, PATH_VCI};
/// let at = Address::new(1, 32);
/// assert_eq!((at.vpi, at.vci), (1, 32));
/// assert_eq!(at.to_string(), "1/32");
/// assert_eq!(Address::of_path(3), Address::new(3, PATH_VCI));
/// assert!(Address::new(1, 65_535) < Address::new(2, 32)); // the order of VPI × 65,536 + VCI
/// ```
#[derive(Debug, Clone, Copy, PartialEq, Eq, PartialOrd, Ord, Hash, Default)]
pub struct Address {
    /// The virtual path.
    pub vpi: u32,
    /// The virtual channel.
    pub vci: u32,
}

impl Address {
    /// The address of these two numbers.
    pub const fn new(vpi: u32, vci: u32) -> Self {
        Address { vpi, vci }
    }

    /// The address of the path with this VPI.
    pub const fn of_path(vpi: u32) -> Self {
        Address::new(vpi, PATH_VCI)
    }
}

impl fmt::Display for Address {
    fn fmt(&self, f: &mut fmt::Formatter<'_>) -> fmt::Result {
        write!(f, "{}/{}", self.vpi, self.vci)
    }
}
