use core::cmp::Ordering;
use core::fmt;
use core::hash::{Hash, Hasher};
use core::iter::FusedIterator;
use core::str::FromStr;

use dns_rdata_sys::{
    dns_rdata_name, dns_rdata_name_from_text, dns_rdata_name_length, dns_rdata_name_text,
    DNS_RDATA_NAME, DNS_RDATA_OK, DNS_RDATA_WRONG_WORD,
};

use crate::call::fill;
use crate::{Error, Rdata, RecordType};

/// A domain name: its uncompressed octets, case preserved (RFC 1035, section 3.1). It allocates nothing.
///
/// Names are equal, and hashed, without regard to the case of ASCII letters. They are ordered label by label from the right
/// (RFC 4034, section 6.1), as `hickory-proto` and `domain` order them. RDATA with names is ordered otherwise: by its canonical
/// octets.
///
/// # Examples
///
/// ```
/// use dns_rdata::Name;
///
/// let origin: Name = "example.com.".parse()?;
/// let name = Name::parse("www", Some(&origin))?;
/// assert_eq!(name.to_string(), "www.example.com.");
/// assert_eq!(name, "WWW.Example.com.".parse()?);
/// assert!(name.labels().eq([&b"www"[..], b"example", b"com"]));
/// # Ok::<(), dns_rdata::Error>(())
/// ```
#[derive(Clone)]
pub struct Name {
    length: u8,
    octets: [u8; Name::MAX_OCTETS],
}

impl Name {
    /// The octets that a name has at most, with the zero octet at its end (RFC 1035, section 2.3.4).
    pub const MAX_OCTETS: usize = 255;

    // The labels that a name has at most: each takes two octets, and the root's zero octet one.
    const MAX_LABELS: usize = Name::MAX_OCTETS / 2;

    /// The name of the root.
    #[must_use]
    pub const fn root() -> Name {
        Name {
            length: 1,
            octets: [0; Name::MAX_OCTETS],
        }
    }

    /// The name whose uncompressed octets are exactly these, with the zero octet at the end.
    ///
    /// # Errors
    ///
    /// [`Status::Name`](crate::Status::Name) if the octets are not one name.
    pub fn from_octets(octets: &[u8]) -> Result<Name, Error> {
        let damaged = Error::of_status(DNS_RDATA_NAME);
        let length = u16::try_from(octets.len()).map_err(|_| damaged)?;
        // The RDATA of NS is a name, and what begins at offset 0 has no compression pointer.
        match Name::in_rdata(Rdata::unchecked(octets, 0, length, RecordType::NS), 0) {
            Some((name, _)) => Ok(name),
            None => Err(damaged),
        }
    }

    /// The name of a text in a zone file (RFC 1035, section 5.1). A relative name is completed by the origin, and `@` is the
    /// origin; without one, a relative name is read as if it had a dot at its end, and `@` is an error.
    ///
    /// # Errors
    ///
    /// [`Status::WrongWord`](crate::Status::WrongWord) or [`Status::MissingWord`](crate::Status::MissingWord) if the text is not
    /// one name; [`Status::Memory`](crate::Status::Memory) if an allocation fails.
    ///
    /// # Examples
    ///
    /// ```
    /// use dns_rdata::Name;
    ///
    /// assert_eq!(Name::parse("@", Some(&Name::root()))?, Name::root());
    /// assert_eq!(Name::parse(r"a\.b.c", None)?.as_octets(), b"\x03a.b\x01c\0");
    /// assert!(Name::parse("two names", None).is_err());
    /// # Ok::<(), dns_rdata::Error>(())
    /// ```
    pub fn parse(text: &str, origin: Option<&Name>) -> Result<Name, Error> {
        if !is_one_token(text.as_bytes()) {
            return Err(Error::of_status(DNS_RDATA_WRONG_WORD));
        }
        let origin = origin.map_or(&[][..], Name::as_octets);
        let mut name = Name::root();
        let count = fill(
            &mut name.octets,
            // SAFETY: the pointers and lengths are those of slices, and the call writes `out` and `count` alone.
            |out, room, count| unsafe {
                dns_rdata_name_from_text(
                    text.as_ptr().cast(),
                    text.len(),
                    origin.as_ptr(),
                    origin.len(),
                    out,
                    room,
                    count,
                )
            },
            Error::of_status,
        )?;
        name.length = short(count);
        Ok(name)
    }

    /// The name that is encoded at an offset of a message, as that of a question at offset 12, and the number of octets that it
    /// takes there ([`Name::encoded_len`]).
    ///
    /// # Errors
    ///
    /// [`Status::Name`](crate::Status::Name) if no name is encoded there, and
    /// [`Status::MissingOctets`](crate::Status::MissingOctets) if the offset is past the end of the message.
    ///
    /// # Examples
    ///
    /// ```
    /// use dns_rdata::Name;
    ///
    /// let (name, length) = Name::from_wire(b"\x01x\x00\x01y\xc0\x00", 3)?;
    /// assert_eq!((name.as_octets(), length), (&b"\x01y\x01x\0"[..], 4));
    /// # Ok::<(), dns_rdata::Error>(())
    /// ```
    pub fn from_wire(message: &[u8], offset: usize) -> Result<(Name, usize), Error> {
        let damaged = Error::of_status(DNS_RDATA_NAME);
        let length = Name::encoded_len(message, offset)?;
        let short = u16::try_from(length).map_err(|_| damaged)?;
        // The RDATA of NS is a name.
        match Name::in_rdata(Rdata::unchecked(message, offset, short, RecordType::NS), 0) {
            Some((name, _)) => Ok((name, length)),
            None => Err(damaged),
        }
    }

    /// How many octets the name that is encoded at an offset of a message takes there, with the zero octet or the compression pointer
    /// (RFC 1035, section 4.1.4) at its end.
    ///
    /// # Errors
    ///
    /// [`Status::Name`](crate::Status::Name) if no name is encoded there, and
    /// [`Status::MissingOctets`](crate::Status::MissingOctets) if the offset is past the end of the message.
    ///
    /// # Examples
    ///
    /// ```
    /// use dns_rdata::Name;
    ///
    /// assert_eq!(Name::encoded_len(b"\x01x\x00\x01y\xc0\x00", 3)?, 4);
    /// # Ok::<(), dns_rdata::Error>(())
    /// ```
    pub fn encoded_len(message: &[u8], offset: usize) -> Result<usize, Error> {
        let mut count = 0;
        // SAFETY: the pointer and the length are a slice's, and the call writes `count` alone.
        let status =
            unsafe { dns_rdata_name_length(message.as_ptr(), message.len(), offset, &mut count) };
        match status {
            DNS_RDATA_OK => Ok(count),
            _ => Err(Error::of_status(status)),
        }
    }

    /// The name with an index in RDATA, and its offset in the message. `None` if there is none.
    pub(crate) fn in_rdata(rdata: Rdata<'_>, index: usize) -> Option<(Name, usize)> {
        let mut name = Name::root();
        let (mut count, mut begin) = (0, 0);
        // SAFETY: the RDATA is a slice's, and the call writes the array of the name, `count` and `begin` alone.
        let status = unsafe {
            dns_rdata_name(
                &rdata.as_raw(),
                index,
                name.octets.as_mut_ptr(),
                name.octets.len(),
                &mut count,
                &mut begin,
            )
        };
        name.length = short(count);
        (status == DNS_RDATA_OK).then_some((name, begin))
    }

    /// The uncompressed octets, case preserved, with the zero octet at the end.
    #[must_use]
    pub fn as_octets(&self) -> &[u8] {
        &self.octets[..usize::from(self.length)]
    }

    /// Whether this is the name of the root.
    #[must_use]
    pub fn is_root(&self) -> bool {
        self.length == 1
    }

    /// The labels from the left to the right, without the empty label of the root.
    #[must_use]
    pub fn labels(&self) -> Labels<'_> {
        Labels {
            left: self.as_octets(),
        }
    }

    /// The name with its ASCII letters in lower case.
    #[must_use]
    pub fn to_lowercase(&self) -> Name {
        let mut name = self.clone();
        // Octets of length are at most 63, so they are no letters.
        name.octets.make_ascii_lowercase();
        name
    }
}

// A number of octets in a name. Unreachable: the library writes at most 255.
fn short(count: usize) -> u8 {
    u8::try_from(count).unwrap_or(u8::MAX)
}

// Whether no octet of a text ends or quotes a token (RFC 1035, section 5.1).
fn is_one_token(text: &[u8]) -> bool {
    let mut is_escaped = false;
    text.iter().all(|&octet| {
        let ends_token = matches!(
            octet,
            b'\t' | b'\n' | b'\r' | b' ' | b'"' | b'(' | b')' | b';'
        );
        let is_plain = is_escaped || !ends_token;
        is_escaped = octet == b'\\' && !is_escaped;
        is_plain
    })
}

impl FromStr for Name {
    type Err = Error;

    /// [`Name::parse`] without an origin: a relative name is read as if it had a dot at its end.
    fn from_str(text: &str) -> Result<Name, Error> {
        Name::parse(text, None)
    }
}

impl fmt::Display for Name {
    /// The text in a zone file, with a dot at its end.
    fn fmt(&self, f: &mut fmt::Formatter<'_>) -> fmt::Result {
        let name = self.as_octets();
        // An octet takes at most four characters, as in \000, and after the text the call writes a zero octet.
        let mut text = [0; 4 * Name::MAX_OCTETS + 1];
        let count = fill(
            &mut text,
            // SAFETY: the octets are a slice's, and the call writes `out` and `count` alone.
            |out, room, count| unsafe {
                dns_rdata_name_text(name.as_ptr(), name.len(), 0, out.cast(), room, count)
            },
            Error::of_status,
        );
        match count.map(|count| core::str::from_utf8(&text[..count])) {
            Ok(Ok(text)) => f.pad(text),
            _ => Err(fmt::Error),
        }
    }
}

impl fmt::Debug for Name {
    fn fmt(&self, f: &mut fmt::Formatter<'_>) -> fmt::Result {
        write!(f, "Name({self})")
    }
}

impl AsRef<[u8]> for Name {
    fn as_ref(&self) -> &[u8] {
        self.as_octets()
    }
}

impl PartialEq for Name {
    fn eq(&self, other: &Name) -> bool {
        // Octets of length are at most 63, so they are no letters.
        self.as_octets().eq_ignore_ascii_case(other.as_octets())
    }
}

impl Eq for Name {}

impl Hash for Name {
    fn hash<H: Hasher>(&self, state: &mut H) {
        self.to_lowercase().as_octets().hash(state);
    }
}

impl PartialOrd for Name {
    fn partial_cmp(&self, other: &Name) -> Option<Ordering> {
        Some(self.cmp(other))
    }
}

impl Ord for Name {
    fn cmp(&self, other: &Name) -> Ordering {
        let (name, other) = (self.to_lowercase(), other.to_lowercase());
        let (mut space, mut other_space) =
            ([&[][..]; Name::MAX_LABELS], [&[][..]; Name::MAX_LABELS]);
        let labels = collect(name.labels(), &mut space);
        let other_labels = collect(other.labels(), &mut other_space);
        labels.iter().rev().cmp(other_labels.iter().rev())
    }
}

// The labels of a name as a list.
fn collect<'a, 'b>(
    labels: Labels<'a>,
    space: &'b mut [&'a [u8]; Name::MAX_LABELS],
) -> &'b [&'a [u8]] {
    let mut count = 0;
    for (label, free) in labels.zip(space.iter_mut()) {
        *free = label;
        count += 1;
    }
    &space[..count]
}

/// The labels of a [`Name`], from the left to the right, without the empty label of the root.
#[derive(Clone, Debug)]
pub struct Labels<'a> {
    left: &'a [u8],
}

impl<'a> Iterator for Labels<'a> {
    type Item = &'a [u8];

    fn next(&mut self) -> Option<&'a [u8]> {
        let (&length, left) = self.left.split_first()?;
        if length == 0 {
            return None;
        }
        let (label, left) = left.split_at_checked(usize::from(length))?;
        self.left = left;
        Some(label)
    }
}

impl FusedIterator for Labels<'_> {}
