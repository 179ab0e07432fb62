use core::cmp::Ordering;
use core::fmt;
use core::hash::{Hash, Hasher};

use alloc::string::String;
use alloc::vec;
use alloc::vec::Vec;

use dns_rdata_sys as sys;

use crate::call::{fill, octets, text};
use crate::{
    CanonicalKey, Error, FoundName, Name, Names, Part, Parts, RdataBuf, RecordType, Strings,
};
// The documentation has links to it.
#[cfg(doc)]
use crate::Status;

/// The RDATA of a record in a message, which was checked: its octets are RDATA of its type.
///
/// It borrows the message, in which names may be compressed, and is cheap to copy. [`RdataBuf`] has octets of its own.
///
/// RDATA is equal, ordered and hashed by its type and then by its canonical octets, wherever it is and however its names are
/// compressed. To sort or look up much RDATA, make a [`CanonicalKey`] of each, which is faster.
///
/// # Examples
///
/// ```
/// use dns_rdata::{Rdata, RecordType};
///
/// // A name, and MX whose name is a compression pointer to it.
/// let message = b"\x07Example\x03com\x00\x00\x0a\xc0\x00";
/// let mx = Rdata::from_wire(message, 13, 4, RecordType::MX)?;
/// assert_eq!(mx.to_text()?, "10 Example.com.");
/// assert_eq!(mx.to_wire()?, b"\x00\x0a\x07Example\x03com\x00");
/// assert_eq!(mx, Rdata::from_octets(b"\x00\x0a\x07example\x03com\x00", RecordType::MX)?);
/// # Ok::<(), dns_rdata::Error>(())
/// ```
#[derive(Clone, Copy)]
pub struct Rdata<'a> {
    message: &'a [u8],
    offset: usize,
    length: u16,
    record_type: RecordType,
}

// RDATA has at most 65535 octets, and uncompressing a name adds at most 255 to them. SOA has two names, and is short.
const MOST_OCTETS: usize = u16::MAX as usize + Name::MAX_OCTETS;

// The call that is named writes octets of the RDATA to a buffer.
macro_rules! put {
    ($rdata:expr, $call:ident, $out:expr) => {
        fill(
            $out,
            // SAFETY: the pointers and lengths are those of slices, and the call writes `out` and `count` alone.
            |out, room, count| unsafe {
                sys::$call(&$rdata.as_raw(), out.cast(), room, count)
            },
            Error::of_status,
        )
    };
}

impl<'a> Rdata<'a> {
    /// The `length` octets (RDLENGTH) at an offset of the message, if they are RDATA of the type. It allocates nothing.
    ///
    /// # Errors
    ///
    /// The first of these that is true: [`Status::Never`] if RDATA of the type is never read; [`Status::Length`] if the record
    /// takes another number of octets than `length`; the record's own error. The error has the record's own error as its
    /// [cause](Error::cause) in any case, and the [offset](Error::offset) where reading stopped.
    #[inline]
    pub fn from_wire(
        message: &'a [u8],
        offset: usize,
        length: u16,
        record_type: RecordType,
    ) -> Result<Rdata<'a>, Error> {
        let rdata = Rdata::unchecked(message, offset, length, record_type);
        let mut why = sys::dns_rdata_refusal::default();
        // SAFETY: the RDATA is a slice's, and `why` is written by this call alone.
        let status = unsafe { sys::dns_rdata_check(&rdata.as_raw(), &mut why) };
        match status {
            sys::DNS_RDATA_OK => Ok(rdata),
            _ => Err(Error::of_rdata(status, &why)),
        }
    }

    /// All of these octets, if they are RDATA of the type. It allocates nothing.
    ///
    /// # Errors
    ///
    /// As [`Rdata::from_wire`], and [`Status::TooLong`] if there are more than 65535 octets.
    pub fn from_octets(octets: &'a [u8], record_type: RecordType) -> Result<Rdata<'a>, Error> {
        match u16::try_from(octets.len()) {
            Ok(length) => Rdata::from_wire(octets, 0, length, record_type),
            Err(_) => Err(Error::of_status(sys::DNS_RDATA_TOO_LONG)),
        }
    }

    // The octets of an owned value, which are RDATA of the type.
    pub(crate) fn of_buf(octets: &'a [u8], record_type: RecordType) -> Rdata<'a> {
        // No RDATA has more than 65535 octets.
        let length = u16::try_from(octets.len()).unwrap_or(u16::MAX);
        Rdata::unchecked(octets, 0, length, record_type)
    }

    // For the calls that check the RDATA themselves, and of what was checked.
    #[inline]
    pub(crate) fn unchecked(
        message: &'a [u8],
        offset: usize,
        length: u16,
        record_type: RecordType,
    ) -> Rdata<'a> {
        Rdata {
            message,
            offset,
            length,
            record_type,
        }
    }

    // The RDATA as the calls of the library take it. The pointer is that of the message, which the RDATA borrows.
    #[inline]
    pub(crate) fn as_raw(&self) -> sys::dns_rdata {
        sys::dns_rdata {
            message: self.message.as_ptr(),
            message_length: self.message.len(),
            offset: self.offset,
            length: self.length,
            type_number: self.record_type.0,
        }
    }

    pub(crate) fn message(&self) -> &'a [u8] {
        self.message
    }

    /// The type.
    #[must_use]
    pub fn record_type(&self) -> RecordType {
        self.record_type
    }

    /// The offset of the RDATA in the message.
    #[must_use]
    pub fn offset(&self) -> usize {
        self.offset
    }

    /// The octets of the RDATA as they are in the message: names may end with compression pointers.
    #[must_use]
    pub fn as_octets(&self) -> &'a [u8] {
        // Unreachable: RDATA that was checked is in the message.
        self.message
            .get(self.offset..self.offset + usize::from(self.length))
            .unwrap_or(&[])
    }

    /// The text in a zone file (RFC 1035, section 5.1; RFC 9460, section 2.1). Types without a
    /// format of their own, OPT, NULL, ANAME, 0, and RDATA that has no such text are written in the unknown-data form of RFC 3597.
    ///
    /// # Errors
    ///
    /// [`Status::TooLong`] if the RDATA has more than 65535 octets with its names uncompressed; [`Status::Memory`] if an
    /// allocation fails.
    pub fn to_text(&self) -> Result<String, Error> {
        text(|out| self.write_text(out))
    }

    /// Writes the text of [`Rdata::to_text`] to a buffer, and a zero octet after it. Returns the length of the text.
    ///
    /// # Errors
    ///
    /// As [`Rdata::to_text`], and [`Status::Buffer`] if the buffer is too small, whose [`Error::needed`] counts the zero octet.
    pub fn write_text(&self, out: &mut [u8]) -> Result<usize, Error> {
        put!(self, dns_rdata_text, out).map_err(Error::with_zero)
    }

    /// The uncompressed octets, names with their case preserved. For types with a format of their own they mean the same in every
    /// message, and a DNSSEC signer starts from them; the octets of all other types are copied.
    ///
    /// # Errors
    ///
    /// [`Status::TooLong`] if they are more than 65535 octets; [`Status::Memory`] if an allocation fails.
    pub fn to_wire(&self) -> Result<Vec<u8>, Error> {
        octets(self.likely_octets(), |out| self.write_wire(out))
    }

    /// Writes the octets of [`Rdata::to_wire`] to a buffer, and returns their number. It allocates nothing.
    ///
    /// # Errors
    ///
    /// [`Status::TooLong`] if they are more than 65535 octets; [`Status::Buffer`] if the buffer is too small, whose
    /// [`Error::needed`] is their number.
    pub fn write_wire(&self, out: &mut [u8]) -> Result<usize, Error> {
        put!(self, dns_rdata_wire, out)
    }

    /// The canonical octets: this library's own form, for equality, order and hashing. RDATA of one type is equal exactly if its
    /// canonical octets are the same.
    ///
    /// They are **not for DNSSEC**: this is not the canonical form of RFC 4034, section 6.2. A signer starts from
    /// [`Rdata::to_wire`].
    ///
    /// # Errors
    ///
    /// [`Status::TooLong`] if they are more than 65535 octets; [`Status::Memory`] if an allocation fails.
    pub fn to_canonical(&self) -> Result<Vec<u8>, Error> {
        octets(self.likely_octets(), |out| self.write_canonical(out))
    }

    /// Writes the octets of [`Rdata::to_canonical`] to a buffer, and returns their number. It allocates nothing. If it fails, the
    /// buffer has as many of them as fit.
    ///
    /// # Errors
    ///
    /// [`Status::TooLong`] if they are more than 65535 octets; [`Status::Buffer`] if the buffer is too small, whose
    /// [`Error::needed`] is their number.
    pub fn write_canonical(&self, out: &mut [u8]) -> Result<usize, Error> {
        put!(self, dns_rdata_canonical, out)
    }

    /// The canonical octets with the type: a key that is equal, ordered and hashed as the RDATA is, and faster.
    ///
    /// # Errors
    ///
    /// As [`Rdata::to_canonical`].
    pub fn to_key(&self) -> Result<CanonicalKey, Error> {
        Ok(CanonicalKey::new(self.record_type, self.to_canonical()?))
    }

    /// The RDATA with uncompressed octets of its own.
    ///
    /// # Errors
    ///
    /// As [`Rdata::to_wire`].
    pub fn to_buf(&self) -> Result<RdataBuf, Error> {
        Ok(RdataBuf::new(self.record_type, self.to_wire()?))
    }

    // As many octets as the RDATA mostly has with one name uncompressed.
    fn likely_octets(&self) -> usize {
        usize::from(self.length) + 64
    }

    /// The names in the RDATA, in the order of the fields: two of SOA, and one or none of the other types. It allocates nothing.
    ///
    /// # Examples
    ///
    /// ```
    /// use dns_rdata::{Rdata, RecordType};
    ///
    /// let message = b"\x03ns1\x07example\x00\x04root\xc0\x04\0\0\0\x01\0\0\0\x02\0\0\0\x03\0\0\0\x04\0\0\0\x05";
    /// let soa = Rdata::from_octets(message, RecordType::SOA)?;
    /// let names: Vec<String> = soa.names().map(|found| found.name.to_string()).collect();
    /// assert_eq!(names, ["ns1.example.", "root.example."]);
    /// # Ok::<(), dns_rdata::Error>(())
    /// ```
    #[must_use]
    pub fn names(&self) -> Names<'a> {
        Names::new(*self)
    }

    /// The name with this index, counted from 0 in the order of the fields. `None` after the last one.
    #[must_use]
    pub fn name(&self, index: usize) -> Option<FoundName> {
        let (name, offset) = Name::in_rdata(*self, index)?;
        Some(FoundName { offset, name })
    }

    /// The options of OPT, or the parameters of SVCB and HTTPS, in the order of the message; other types have none. Going over
    /// all takes time linear in the length of the RDATA. It allocates nothing.
    ///
    /// # Examples
    ///
    /// ```
    /// use dns_rdata::{Rdata, RecordType};
    ///
    /// let opt = Rdata::from_octets(b"\x00\x0a\x00\x02\x01\x02\x00\x0c\x00\x00", RecordType::OPT)?;
    /// let codes: Vec<u16> = opt.parts().map(|part| part.number).collect();
    /// assert_eq!(codes, [10, 12]);
    /// # Ok::<(), dns_rdata::Error>(())
    /// ```
    #[must_use]
    pub fn parts(&self) -> Parts<'a> {
        let mut cursor = sys::dns_rdata_parts::default();
        // SAFETY: the RDATA is a slice's, and `cursor` is written by this call alone. RDATA that was checked
        // has parts, or the status is ABSENT and the cursor has none.
        let _status = unsafe { sys::dns_rdata_parts_begin(&self.as_raw(), &mut cursor) };
        Parts::new(*self, cursor)
    }

    /// The option or parameter with this index, counted from 0 in the order of the message. `None` after the last one. Each call
    /// looks at all of them: [`Rdata::parts`] is faster for going over all. It allocates nothing.
    #[must_use]
    pub fn part(&self, index: usize) -> Option<Part<'a>> {
        let (mut number, mut offset, mut count) = (0, 0, 0);
        // SAFETY: the RDATA is a slice's, and the call writes the other three alone.
        let status = unsafe {
            sys::dns_rdata_part(&self.as_raw(), index, &mut number, &mut offset, &mut count)
        };
        (status == sys::DNS_RDATA_OK).then(|| Part::new(self.message, number, offset, count))
    }

    /// The character strings (RFC 1035, section 3.3) of TXT, HINFO and NAPTR, in the order of the message, each without the octet
    /// of its length; other types have none. It allocates nothing.
    ///
    /// # Examples
    ///
    /// ```
    /// use dns_rdata::{Rdata, RecordType};
    ///
    /// let txt = Rdata::from_octets(b"\x05v=abc\x00\x01x", RecordType::TXT)?;
    /// assert!(txt.strings().eq([&b"v=abc"[..], b"", b"x"]));
    /// # Ok::<(), dns_rdata::Error>(())
    /// ```
    #[must_use]
    pub fn strings(&self) -> Strings<'a> {
        Strings::new(self.record_type, self.as_octets())
    }
}

impl fmt::Debug for Rdata<'_> {
    /// The type and the text, or why there is no text.
    fn fmt(&self, f: &mut fmt::Formatter<'_>) -> fmt::Result {
        match self.to_text() {
            Ok(text) => write!(f, "Rdata({} {text})", self.record_type),
            Err(error) => write!(f, "Rdata({}: {error})", self.record_type),
        }
    }
}

impl PartialEq for Rdata<'_> {
    fn eq(&self, other: &Rdata<'_>) -> bool {
        if self.record_type != other.record_type {
            return false;
        }
        let mut equal = 0;
        // SAFETY: the RDATA of both is a slice's, and `equal` is written by this call alone.
        let status = unsafe { sys::dns_rdata_equal(&self.as_raw(), &other.as_raw(), &mut equal) };
        debug_assert_eq!(
            status,
            sys::DNS_RDATA_OK,
            "RDATA that was checked is compared"
        );
        equal != 0
    }
}

impl Eq for Rdata<'_> {}

impl PartialOrd for Rdata<'_> {
    fn partial_cmp(&self, other: &Rdata<'_>) -> Option<Ordering> {
        Some(self.cmp(other))
    }
}

impl Ord for Rdata<'_> {
    fn cmp(&self, other: &Rdata<'_>) -> Ordering {
        if self.record_type != other.record_type {
            return self.record_type.cmp(&other.record_type);
        }
        let mut order = 0;
        // SAFETY: the RDATA of both is a slice's, and `order` is written by this call alone.
        let status = unsafe { sys::dns_rdata_compare(&self.as_raw(), &other.as_raw(), &mut order) };
        debug_assert_eq!(
            status,
            sys::DNS_RDATA_OK,
            "RDATA that was checked is compared"
        );
        order.cmp(&0)
    }
}

impl Hash for Rdata<'_> {
    /// Hashes the type and the canonical octets. It allocates if they are more than 512.
    fn hash<H: Hasher>(&self, state: &mut H) {
        self.record_type.hash(state);
        let mut few = [0; 512];
        match self.write_canonical(&mut few) {
            Ok(count) => few[..count].hash(state),
            Err(error) => {
                // If they are more than 65535, their number is not known, and zeros follow them: equal RDATA has equal ones.
                let mut all = vec![0; error.needed().unwrap_or(MOST_OCTETS)];
                let _ = self.write_canonical(&mut all);
                all.hash(state);
            }
        }
    }
}
