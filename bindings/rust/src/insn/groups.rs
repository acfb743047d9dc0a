use crate::sys;
use std::{fmt, ops};

/// A set of conformance groups (RFC 9669 section 2.4): instructions that a runtime supports
/// together. `base64`, `atomic64` and `divmul64` include `base32`, `atomic32` and `divmul32`;
/// `packet` is legacy access to packets.
///
/// ```
/// use bpfcanon::insn::{self, Groups};
/// use bpfcanon::Order;
///
/// let needed = insn::groups(Order::Little, &insn::read(Order::Little, "mul32 r0, 3\nexit\n")?)?;
/// assert_eq!(needed, Groups::BASE32 | Groups::DIVMUL32);
/// assert_eq!(needed.to_string(), "base32 divmul32");
/// assert!(!needed.contains(Groups::BASE64));
/// # Ok::<(), Box<dyn std::error::Error>>(())
/// ```
#[derive(Clone, Copy, Default, PartialEq, Eq, Hash)]
pub struct Groups(u32);

#[rustfmt::skip]
const NAMES: &[&str] = &[
    "base32", "base64", "atomic32", "atomic64", "divmul32", "divmul64", "packet",
];

impl Groups {
    /// `base32`.
    pub const BASE32: Groups = Groups(sys::BPFCANON_GROUP_BASE32);
    /// `base64`.
    pub const BASE64: Groups = Groups(sys::BPFCANON_GROUP_BASE64);
    /// `atomic32`.
    pub const ATOMIC32: Groups = Groups(sys::BPFCANON_GROUP_ATOMIC32);
    /// `atomic64`.
    pub const ATOMIC64: Groups = Groups(sys::BPFCANON_GROUP_ATOMIC64);
    /// `divmul32`.
    pub const DIVMUL32: Groups = Groups(sys::BPFCANON_GROUP_DIVMUL32);
    /// `divmul64`.
    pub const DIVMUL64: Groups = Groups(sys::BPFCANON_GROUP_DIVMUL64);
    /// `packet`.
    pub const PACKET: Groups = Groups(sys::BPFCANON_GROUP_PACKET);

    /// Returns the set of no groups.
    pub const fn empty() -> Groups {
        Groups(0)
    }

    /// Returns the groups as a mask of `enum bpfcanon_group`.
    pub const fn bits(self) -> u32 {
        self.0
    }

    /// Makes a set from a mask of `enum bpfcanon_group`. Bits of no group are kept.
    pub const fn from_bits_retain(bits: u32) -> Groups {
        Groups(bits)
    }

    /// Returns whether no group is in the set.
    pub const fn is_empty(self) -> bool {
        self.0 == 0
    }

    /// Returns whether all of `groups` are in the set.
    pub const fn contains(self, groups: Groups) -> bool {
        self.0 & groups.0 == groups.0
    }

    /// Returns the names of the groups, in the order of the RFC.
    pub fn names(self) -> impl Iterator<Item = &'static str> {
        NAMES
            .iter()
            .enumerate()
            .filter(move |(bit, _)| self.0 >> bit & 1 == 1)
            .map(|(_, name)| *name)
    }
}

impl ops::BitOr for Groups {
    type Output = Groups;

    fn bitor(self, other: Groups) -> Groups {
        Groups(self.0 | other.0)
    }
}

impl ops::BitOrAssign for Groups {
    fn bitor_assign(&mut self, other: Groups) {
        self.0 |= other.0;
    }
}

impl ops::BitAnd for Groups {
    type Output = Groups;

    fn bitand(self, other: Groups) -> Groups {
        Groups(self.0 & other.0)
    }
}

impl fmt::Display for Groups {
    fn fmt(&self, f: &mut fmt::Formatter<'_>) -> fmt::Result {
        self.names()
            .enumerate()
            .try_for_each(|(k, name)| write!(f, "{}{name}", if k == 0 { "" } else { " " }))
    }
}

impl fmt::Debug for Groups {
    fn fmt(&self, f: &mut fmt::Formatter<'_>) -> fmt::Result {
        write!(f, "Groups({self})")
    }
}
