//! The address of a connection, and its name (document 02, L6; that of a path, L13).

/// The largest VPI.
pub const VPI_MAX: u32 = 0xFF;

/// The largest VCI.
pub const VCI_MAX: u32 = 0xFFFF;

/// The VCI in the name of a path, and in its RM cells (document 02, L13).
pub const PATH_VCI: u32 = 6;

/// A VPI and a VCI, each in its range or not. Of two that are in range the lower one
/// is that with the lower name.
#[derive(Debug, Clone, Copy, PartialEq, Eq, PartialOrd, Ord, Default)]
pub struct Address {
    /// The virtual path.
    pub vpi: u32,
    /// The virtual channel.
    pub vci: u32,
}

impl Address {
    /// The address of these two numbers.
    pub const fn new(vpi: u32, vci: u32) -> Self {
        Address { vpi, vci }
    }

    /// The address of the path with this VPI.
    pub const fn of_path(vpi: u32) -> Self {
        Address::new(vpi, PATH_VCI)
    }

    /// Whether both numbers are in their ranges.
    pub const fn fits(self) -> bool {
        self.vpi <= VPI_MAX && self.vci <= VCI_MAX
    }

    /// The name of the connection: VPI x 65,536 + VCI. Nothing if a number is out of
    /// its range: the sum would be the name of another.
    pub fn name(self) -> Option<u32> {
        self.fits().then(|| self.vpi * 65_536 + self.vci)
    }
}

#[cfg(test)]
mod tests {
    use super::*;

    #[test]
    fn names() {
        let name = |vpi, vci| Address::new(vpi, vci).name();
        assert_eq!(name(0, 0), Some(0));
        assert_eq!(name(0, 65_535), Some(65_535));
        assert_eq!(name(1, 0), Some(65_536));
        assert_eq!(name(255, 65_535), Some((1 << 24) - 1));
    }

    #[test]
    fn numbers_out_of_range_make_no_name() {
        let outside = [
            (256, 0),
            (256, 32),
            (0, 65_536),
            (0, 65_568),
            (255, 65_536),
            (256, 65_536),
            (65_536, 32),
            (u32::MAX, 65_568),
            (u32::MAX, u32::MAX),
        ];
        for (vpi, vci) in outside {
            assert_eq!(Address::new(vpi, vci).name(), None);
        }
    }

    #[test]
    fn addresses_are_in_the_order_of_their_names() {
        let rising = [(0, 32), (0, 33), (0, 65_535), (1, 0), (1, 32), (255, 31)];
        let addresses = rising.map(|(vpi, vci)| Address::new(vpi, vci));
        assert!(addresses.is_sorted());
        assert!(addresses.map(Address::name).is_sorted());
    }
}
