use core::iter::FusedIterator;

use dns_rdata_sys::{dns_rdata_parts, dns_rdata_parts_next, DNS_RDATA_OK};

use crate::{Name, Rdata, RecordType};

/// A name that was found in RDATA.
#[derive(Clone, Debug, PartialEq, Eq)]
pub struct FoundName {
    /// The offset of the name in the message, where it may end with a compression pointer.
    pub offset: usize,
    /// The name, uncompressed and with its case preserved.
    pub name: Name,
}

/// The names in RDATA, in the order of the fields: see [`Rdata::names`].
#[derive(Clone, Debug)]
pub struct Names<'a> {
    rdata: Rdata<'a>,
    index: usize,
}

impl<'a> Names<'a> {
    pub(crate) fn new(rdata: Rdata<'a>) -> Names<'a> {
        Names { rdata, index: 0 }
    }
}

impl Iterator for Names<'_> {
    type Item = FoundName;

    fn next(&mut self) -> Option<FoundName> {
        let found = self.rdata.name(self.index)?;
        self.index += 1;
        Some(found)
    }
}

impl FusedIterator for Names<'_> {}

/// An option of OPT (RFC 6891, section 6.1.2), or a parameter of SVCB and HTTPS (RFC 9460, section 2.2).
#[derive(Clone, Copy, Debug, PartialEq, Eq, Hash)]
pub struct Part<'a> {
    /// The code of the option, or the key of the parameter.
    pub number: u16,
    /// The offset of its value in the message.
    pub offset: usize,
    /// The octets of its value.
    pub value: &'a [u8],
}

impl<'a> Part<'a> {
    pub(crate) fn new(message: &'a [u8], number: u16, offset: usize, count: usize) -> Part<'a> {
        // Unreachable: what the library finds is in the message.
        let value = message
            .get(offset..)
            .and_then(|octets| octets.get(..count))
            .unwrap_or(&[]);
        Part {
            number,
            offset,
            value,
        }
    }
}

/// The options of OPT, or the parameters of SVCB and HTTPS, in the order of the message: see [`Rdata::parts`].
#[derive(Clone, Debug)]
pub struct Parts<'a> {
    rdata: Rdata<'a>,
    cursor: dns_rdata_parts,
}

impl<'a> Parts<'a> {
    pub(crate) fn new(rdata: Rdata<'a>, cursor: dns_rdata_parts) -> Parts<'a> {
        Parts { rdata, cursor }
    }
}

impl<'a> Iterator for Parts<'a> {
    type Item = Part<'a>;

    fn next(&mut self) -> Option<Part<'a>> {
        let (mut number, mut offset, mut count) = (0, 0, 0);
        // SAFETY: the RDATA is a slice's, and the call writes the others alone.
        let status = unsafe {
            dns_rdata_parts_next(
                &self.rdata.as_raw(),
                &mut self.cursor,
                &mut number,
                &mut offset,
                &mut count,
            )
        };
        (status == DNS_RDATA_OK).then(|| Part::new(self.rdata.message(), number, offset, count))
    }
}

impl FusedIterator for Parts<'_> {}

/// Character strings in RDATA, each without the octet of its length: see [`Rdata::strings`].
#[derive(Clone, Debug)]
pub struct Strings<'a> {
    octets: &'a [u8],
    left: usize,
}

impl<'a> Strings<'a> {
    // The octets are RDATA of the type, which was checked.
    pub(crate) fn new(record_type: RecordType, octets: &'a [u8]) -> Strings<'a> {
        // TXT has strings alone, HINFO two, and NAPTR three after two numbers and before a name.
        let (before, left) = match record_type {
            RecordType::TXT => (0, usize::MAX),
            RecordType::HINFO => (0, 2),
            RecordType::NAPTR => (4, 3),
            _ => (0, 0),
        };
        Strings {
            octets: octets.get(before..).unwrap_or(&[]),
            left,
        }
    }
}

impl<'a> Iterator for Strings<'a> {
    type Item = &'a [u8];

    fn next(&mut self) -> Option<&'a [u8]> {
        self.left = self.left.checked_sub(1)?;
        let (&length, octets) = self.octets.split_first()?;
        let (string, octets) = octets.split_at_checked(usize::from(length))?;
        self.octets = octets;
        Some(string)
    }
}

impl FusedIterator for Strings<'_> {}
