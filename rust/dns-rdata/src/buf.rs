use core::cmp::Ordering;
use core::fmt;
use core::hash::{Hash, Hasher};

use alloc::vec::Vec;

use dns_rdata_sys::{
    dns_rdata_parse, dns_rdata_parse_why, dns_rdata_text_fault, DNS_RDATA_NO_DATA_TEXT,
};

use crate::call::{self, fill, octets};
use crate::{Error, Name, Rdata, RecordType, TextFault};

/// RDATA with uncompressed octets of its own, as from a text.
///
/// [`RdataBuf::as_rdata`] lends it as [`Rdata`], which has all other calls. It is equal, ordered and hashed as that, and printed
/// as its zone file text.
///
/// # Examples
///
/// ```
/// use dns_rdata::{Name, RdataBuf, RecordType};
///
/// let origin: Name = "example.com.".parse()?;
/// let mx = RdataBuf::from_text("10 mail", RecordType::MX, Some(&origin))?;
/// assert_eq!(mx.as_octets(), b"\x00\x0a\x04mail\x07example\x03com\x00");
/// assert_eq!(mx.to_string(), "10 mail.example.com.");
/// # Ok::<(), dns_rdata::Error>(())
/// ```
#[derive(Clone)]
pub struct RdataBuf {
    record_type: RecordType,
    octets: Vec<u8>,
}

impl RdataBuf {
    pub(crate) fn new(record_type: RecordType, octets: Vec<u8>) -> RdataBuf {
        RdataBuf {
            record_type,
            octets,
        }
    }

    /// The RDATA of a zone file's text: what follows the type (RFC 1035, section 5.1; RFC 9460, section 2.1). The unknown-data form
    /// of RFC 3597 is read of every type. The text need not be UTF-8. Relative names are completed by the origin; without one, they
    /// are read as if they had a dot at their end.
    ///
    /// What [`Rdata::to_text`] writes is read again as the octets of [`Rdata::to_wire`], whatever the origin.
    ///
    /// # Errors
    ///
    /// [`Status::MissingWord`](crate::Status::MissingWord) and [`Status::WrongWord`](crate::Status::WrongWord) if a token is missing
    /// or wrong; [`Status::UnsupportedType`](crate::Status::UnsupportedType) if the type is read in the unknown-data form alone;
    /// [`Status::WrongValue`](crate::Status::WrongValue) if the octets of the text are not RDATA of the type;
    /// [`Status::Memory`](crate::Status::Memory) if an allocation fails.
    ///
    /// # Examples
    ///
    /// ```
    /// use dns_rdata::{RdataBuf, RecordType};
    ///
    /// let txt = RdataBuf::from_text(br#""a \"" \# "#, RecordType::TXT, None)?;
    /// assert_eq!(txt.as_octets(), b"\x03a \"\x01#");
    /// # Ok::<(), dns_rdata::Error>(())
    /// ```
    pub fn from_text(
        text: impl AsRef<[u8]>,
        record_type: RecordType,
        origin: Option<&Name>,
    ) -> Result<RdataBuf, Error> {
        let text = text.as_ref();
        let name = origin.map_or(&[][..], Name::as_octets);
        let parsed = octets(512, |out| {
            fill(
                out,
                // SAFETY: the pointers and lengths are those of slices, and the call writes `out` and `count` alone.
                |out, room, count| unsafe {
                    dns_rdata_parse(
                        text.as_ptr().cast(),
                        text.len(),
                        record_type.0,
                        name.as_ptr(),
                        name.len(),
                        out,
                        room,
                        count,
                    )
                },
                |status| match status {
                    DNS_RDATA_NO_DATA_TEXT.. => {
                        let mut fault = dns_rdata_text_fault::default();
                        // If an allocation fails, the error has no numbers.
                        let _ = why(text, record_type, name, &mut [], &mut fault);
                        Error::of_text(status, record_type, &fault)
                    }
                    _ => Error::of_status(status),
                },
            )
        })?;
        Ok(RdataBuf::new(record_type, parsed))
    }

    /// Why [`RdataBuf::from_text`] rejects a text, in words: what is wrong, and the name of the field. `None` if it does not.
    ///
    /// # Errors
    ///
    /// [`Status::Memory`](crate::Status::Memory) if an allocation fails.
    pub fn why(
        text: impl AsRef<[u8]>,
        record_type: RecordType,
        origin: Option<&Name>,
    ) -> Result<Option<TextFault>, Error> {
        let text = text.as_ref();
        let error = match RdataBuf::from_text(text, record_type, origin) {
            Ok(_) => return Ok(None),
            Err(error) if error.status().number() < DNS_RDATA_NO_DATA_TEXT => return Err(error),
            Err(error) => error,
        };
        let origin = origin.map_or(&[][..], Name::as_octets);
        let mut fault = dns_rdata_text_fault::default();
        let reason = call::text(|out| why(text, record_type, origin, out, &mut fault))?;
        Ok(Some(TextFault {
            error,
            reason,
            field: fault.field..fault.field + fault.field_length,
        }))
    }

    /// The type.
    #[must_use]
    pub fn record_type(&self) -> RecordType {
        self.record_type
    }

    /// The uncompressed octets, names with their case preserved.
    #[must_use]
    pub fn as_octets(&self) -> &[u8] {
        &self.octets
    }

    /// The uncompressed octets, names with their case preserved.
    #[must_use]
    pub fn into_octets(self) -> Vec<u8> {
        self.octets
    }

    /// The RDATA, lent.
    #[must_use]
    pub fn as_rdata(&self) -> Rdata<'_> {
        Rdata::of_buf(&self.octets, self.record_type)
    }
}

// Writes the reason why a text is rejected, and the numbers of its fault. Returns the number of octets.
fn why(
    text: &[u8],
    record_type: RecordType,
    origin: &[u8],
    out: &mut [u8],
    fault: &mut dns_rdata_text_fault,
) -> Result<usize, Error> {
    fill(
        out,
        // SAFETY: the pointers and lengths are those of slices, and the call writes `out`, `count` and `fault` alone.
        |out, room, count| unsafe {
            dns_rdata_parse_why(
                text.as_ptr().cast(),
                text.len(),
                record_type.0,
                origin.as_ptr(),
                origin.len(),
                out.cast(),
                room,
                count,
                fault,
            )
        },
        Error::of_status,
    )
    .map_err(Error::with_zero)
}

impl AsRef<[u8]> for RdataBuf {
    fn as_ref(&self) -> &[u8] {
        self.as_octets()
    }
}

impl fmt::Display for RdataBuf {
    /// The text of [`Rdata::to_text`]. It fails only if an allocation fails.
    fn fmt(&self, f: &mut fmt::Formatter<'_>) -> fmt::Result {
        f.pad(&self.as_rdata().to_text().map_err(|_| fmt::Error)?)
    }
}

impl fmt::Debug for RdataBuf {
    fn fmt(&self, f: &mut fmt::Formatter<'_>) -> fmt::Result {
        write!(f, "RdataBuf({} {self})", self.record_type)
    }
}

impl PartialEq for RdataBuf {
    fn eq(&self, other: &RdataBuf) -> bool {
        self.as_rdata() == other.as_rdata()
    }
}

impl Eq for RdataBuf {}

impl PartialOrd for RdataBuf {
    fn partial_cmp(&self, other: &RdataBuf) -> Option<Ordering> {
        Some(self.cmp(other))
    }
}

impl Ord for RdataBuf {
    fn cmp(&self, other: &RdataBuf) -> Ordering {
        self.as_rdata().cmp(&other.as_rdata())
    }
}

impl Hash for RdataBuf {
    fn hash<H: Hasher>(&self, state: &mut H) {
        self.as_rdata().hash(state);
    }
}
