//! Whose address a message has.
use crate::raw;
use core::fmt;

/// Of which kind an address is. Only an ICAO address names an aircraft of the ICAO register.
#[derive(Clone, Copy, Debug, PartialEq, Eq, PartialOrd, Ord, Hash)]
pub enum AddressKind {
    /// An ICAO address: formats 11 and 17, and format 18 with control code 0.
    Icao,
    /// An address of another kind: format 18 with control code 5.
    Other,
    /// One or the other, as a flag inside the message tells: format 18 with control code 2, 3 or 6.
    Flagged,
}

/// As a listing has it: `I`, `X` or `?`.
impl fmt::Display for AddressKind {
    fn fmt(&self, f: &mut fmt::Formatter<'_>) -> fmt::Result {
        f.pad(match self {
            AddressKind::Icao => "I",
            AddressKind::Other => "X",
            AddressKind::Flagged => "?",
        })
    }
}

/// The kind of the address behind a first byte, which is taken as it is after the repairs. `None` where it claims no address: a
/// management message, format 18 with control code 4, and every first byte that neither [`header`](crate::header) nor
/// [`header_short`](crate::header_short) takes.
#[must_use]
pub fn address_kind(first: u8) -> Option<AddressKind> {
    // SAFETY: no memory is lent.
    match unsafe { raw::khlongrae_address_kind(first) } {
        raw::NO_ADDRESS => None,
        raw::ADDRESS_ICAO => Some(AddressKind::Icao),
        raw::ADDRESS_OTHER => Some(AddressKind::Other),
        raw::ADDRESS_FLAGGED => Some(AddressKind::Flagged),
        // It is proved that the library answers no other number.
        kind => panic!("kind {kind}: this archive has another interface"),
    }
}

/// The address of a message: its kind, and bytes 1 to 3, the first one highest. Addresses of one kind are ordered as their numbers are.
#[derive(Clone, Copy, Debug, PartialEq, Eq, PartialOrd, Ord, Hash)]
pub struct Address {
    /// Of which kind it is.
    pub kind: AddressKind,
    /// Its bytes.
    pub bytes: [u8; 3],
}

impl Address {
    /// The address as a number of 24 bits.
    #[must_use]
    pub fn number(self) -> u32 {
        let [high, middle, low] = self.bytes;
        u32::from_be_bytes([0, high, middle, low])
    }
}

/// As a listing has it: the letter of the kind and six capital hex digits.
impl fmt::Display for Address {
    fn fmt(&self, f: &mut fmt::Formatter<'_>) -> fmt::Result {
        write!(f, "{}{:06X}", self.kind, self.number())
    }
}
