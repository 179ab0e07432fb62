use alloc::vec::Vec;

use crate::RecordType;

/// The canonical octets of RDATA, with its type: a key that is equal, ordered and hashed as the [`Rdata`](crate::Rdata) is.
///
/// The octets are made once, by [`Rdata::to_key`](crate::Rdata::to_key), so that a comparison is one of octets. They are **not for
/// DNSSEC**: see [`Rdata::to_canonical`](crate::Rdata::to_canonical).
///
/// # Examples
///
/// ```
/// use dns_rdata::{Rdata, RecordType};
/// use std::collections::BTreeSet;
///
/// let texts = [&b"\x00\x0a\x01b\x00"[..], b"\x00\x0a\x01a\x00", b"\x00\x0a\x01A\x00"];
/// let keys: Result<BTreeSet<_>, _> =
///     texts.iter().map(|octets| Rdata::from_octets(octets, RecordType::MX)?.to_key()).collect();
/// assert_eq!(keys?.len(), 2);
/// # Ok::<(), dns_rdata::Error>(())
/// ```
// The order of two lists of octets in Rust is the one of canonical octets: the first octet that differs, then the shorter one.
#[derive(Clone, Debug, PartialEq, Eq, PartialOrd, Ord, Hash)]
pub struct CanonicalKey {
    record_type: RecordType,
    octets: Vec<u8>,
}

impl CanonicalKey {
    pub(crate) fn new(record_type: RecordType, octets: Vec<u8>) -> CanonicalKey {
        CanonicalKey {
            record_type,
            octets,
        }
    }

    /// The type.
    #[must_use]
    pub fn record_type(&self) -> RecordType {
        self.record_type
    }

    /// The canonical octets.
    #[must_use]
    pub fn as_octets(&self) -> &[u8] {
        &self.octets
    }
}
