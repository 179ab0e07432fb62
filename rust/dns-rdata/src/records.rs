use core::fmt;
use core::iter::FusedIterator;

use dns_rdata_sys as sys;

use crate::{Error, Name, Rdata, RecordType, Status};

/// The records of a message, one after the other: answers, authorities and additional records, as many as the header of the message
/// counts (RFC 1035, section 4.1). It borrows the message, and allocates nothing.
///
/// A record whose RDATA is rejected is an error that has the record, and the walk goes on after it. If a record is damaged, or if
/// the walk would go over too many labels and compression pointers, the error has no record, and no item follows it.
///
/// The names in one hostile message can go over the same labels and compression pointers thousands of times. So a walk counts both,
/// each as often as another name goes over it, and ends when the count passes 262,144; real messages need a few for each name.
/// [`Records::set_limit`] sets another limit.
///
/// # Examples
///
/// ```
/// use dns_rdata::{Records, RecordType, Section};
///
/// // A question for A of `a.`, and an answer whose owner is a compression pointer to its name.
/// let message = b"\0\0\x80\0\0\x01\0\x01\0\0\0\0\x01a\0\0\x01\0\x01\xc0\x0c\0\x01\0\x01\0\0\0\x3c\0\x04\xc0\0\x02\x01";
/// for record in Records::new(message)? {
///     match record {
///         Ok(record) => {
///             assert_eq!(record.section(), Section::Answer);
///             assert_eq!((record.owner().to_string(), record.ttl()), ("a.".to_string(), 60));
///             assert_eq!(record.record_type(), RecordType::A);
///             assert_eq!(record.rdata().unwrap().to_text()?, "192.0.2.1");
///         }
///         Err(error) => println!("{error}"),
///     }
/// }
/// # Ok::<(), dns_rdata::Error>(())
/// ```
#[derive(Clone, Debug)]
pub struct Records<'a> {
    message: &'a [u8],
    cursor: sys::dns_rdata_records,
}

impl<'a> Records<'a> {
    /// The records of a message, which begin after its questions.
    ///
    /// # Errors
    ///
    /// [`Status::Header`] if the message is shorter than the twelve octets of a header; [`Status::Question`] if one of its questions
    /// is damaged; [`Status::Limit`] if the names of its questions have more than 262,144 labels and
    /// compression pointers.
    pub fn new(message: &'a [u8]) -> Result<Records<'a>, Error> {
        let mut cursor = sys::dns_rdata_records::default();
        // SAFETY: the pointer and the length are a slice's, and `cursor` is written by this call alone.
        let status =
            unsafe { sys::dns_rdata_records_begin(message.as_ptr(), message.len(), &mut cursor) };
        match status {
            sys::DNS_RDATA_OK => Ok(Records { message, cursor }),
            _ => Err(Error::of_status(status)),
        }
    }

    /// Sets how many labels and compression pointers of names the walk may go over from here on.
    pub fn set_limit(&mut self, limit: usize) {
        // Of a walk that has ended the cursor has no records, whatever the limit.
        self.cursor.left = limit.saturating_add(1);
    }

    /// The offset in the message of the next record, and after the last one the offset where it ends. After an error that has no
    /// record, the offset where that record would begin.
    #[must_use]
    pub fn offset(&self) -> usize {
        self.cursor.next
    }

    // The error of a record whose RDATA is rejected.
    fn rejected(&self, status: u32, record: Record<'a>) -> RecordError<'a> {
        let (offset, length) = (record.fields.rdata, record.fields.length);
        let error = match Rdata::from_wire(self.message, offset, length, record.record_type()) {
            Err(error) => error,
            // Unreachable: the call that checks the RDATA alone rejects it, too.
            Ok(_) => Error::of_status(status),
        };
        RecordError {
            error,
            offset: record.fields.owner,
            record: Some(record),
        }
    }
}

impl<'a> Iterator for Records<'a> {
    type Item = Result<Record<'a>, RecordError<'a>>;

    fn next(&mut self) -> Option<Self::Item> {
        let offset = self.cursor.next;
        let mut fields = sys::dns_rdata_record::default();
        // SAFETY: the pointer and the length are a slice's, and the call writes the others alone.
        let status = unsafe {
            sys::dns_rdata_records_next(
                self.message.as_ptr(),
                self.message.len(),
                &mut self.cursor,
                &mut fields,
            )
        };
        let record = Record {
            message: self.message,
            fields,
            has_rdata: status == sys::DNS_RDATA_OK && fields.has_data != 0,
        };
        match status {
            sys::DNS_RDATA_OK => Some(Ok(record)),
            sys::DNS_RDATA_ABSENT => None,
            sys::DNS_RDATA_REFUSED..sys::DNS_RDATA_DAMAGED => {
                Some(Err(self.rejected(status, record)))
            }
            // The library has ended the walk.
            _ => Some(Err(RecordError {
                error: Error::of_status(status),
                offset,
                record: None,
            })),
        }
    }

    fn size_hint(&self) -> (usize, Option<usize>) {
        let most = self.cursor.until.saturating_sub(self.cursor.passed);
        (0, Some(most))
    }
}

impl FusedIterator for Records<'_> {}

/// Where in a message a record is (RFC 1035, section 4.1).
#[derive(Clone, Copy, Debug, PartialEq, Eq, PartialOrd, Ord, Hash)]
pub enum Section {
    /// The answers.
    Answer = 1,
    /// The authorities; in an UPDATE, the changes (RFC 2136, section 2).
    Authority = 2,
    /// The additional records, of which OPT and TSIG are some.
    Additional = 3,
}

impl fmt::Display for Section {
    fn fmt(&self, f: &mut fmt::Formatter<'_>) -> fmt::Result {
        f.pad(match self {
            Section::Answer => "answer",
            Section::Authority => "authority",
            Section::Additional => "additional",
        })
    }
}

/// A record of a message (RFC 1035, section 4.1.3): see [`Records`].
#[derive(Clone, Copy)]
pub struct Record<'a> {
    message: &'a [u8],
    // What the library has found in this message.
    fields: sys::dns_rdata_record,
    // Whether there is RDATA, which is that of the type.
    has_rdata: bool,
}

impl<'a> Record<'a> {
    // The octets of the type, the class, the TTL and RDLENGTH, between the owner and the RDATA.
    const FIXED: usize = 10;

    /// The offset of the record in the message, where its owner is encoded.
    #[must_use]
    pub fn offset(&self) -> usize {
        self.fields.owner
    }

    /// The name of its owner, uncompressed and with its case preserved.
    #[must_use]
    pub fn owner(&self) -> Name {
        let length = self
            .fields
            .rdata
            .saturating_sub(self.fields.owner + Self::FIXED);
        let length = u16::try_from(length).unwrap_or(0);
        // The octets of the owner are the RDATA of a record of type NS.
        let owner = Rdata::unchecked(self.message, self.fields.owner, length, RecordType::NS);
        // Unreachable: the library has read this name.
        Name::in_rdata(owner, 0).map_or_else(Name::root, |(name, _)| name)
    }

    /// The section that the record is in.
    #[must_use]
    pub fn section(&self) -> Section {
        match self.fields.section {
            1 => Section::Answer,
            2 => Section::Authority,
            _ => Section::Additional,
        }
    }

    /// The index of the record in its section, counted from 0.
    #[must_use]
    pub fn index(&self) -> usize {
        self.fields.index
    }

    /// The type.
    #[must_use]
    pub fn record_type(&self) -> RecordType {
        RecordType(self.fields.type_number)
    }

    /// The class: 1 for IN (RFC 1035, section 3.2.4). Of OPT, the size of UDP payloads.
    #[must_use]
    pub fn class(&self) -> u16 {
        self.fields.rrclass
    }

    /// The TTL in seconds, as it is encoded. Of OPT, other things (RFC 6891, section 6.1.3).
    #[must_use]
    pub fn ttl(&self) -> u32 {
        self.fields.ttl
    }

    /// The RDATA. `None` for a record of UPDATE that has no data (class ANY or NONE, RDLENGTH 0: RFC 2136, sections 2.4 and 2.5), and
    /// for the record of an error, whose RDATA is rejected.
    #[must_use]
    pub fn rdata(&self) -> Option<Rdata<'a>> {
        self.has_rdata.then(|| {
            Rdata::unchecked(
                self.message,
                self.fields.rdata,
                self.fields.length,
                self.record_type(),
            )
        })
    }

    /// The offset of the RDATA in the message.
    #[must_use]
    pub fn rdata_offset(&self) -> usize {
        self.fields.rdata
    }

    /// The octets of the RDATA as they are in the message, RDLENGTH many, also of a record whose RDATA is rejected.
    #[must_use]
    pub fn rdata_octets(&self) -> &'a [u8] {
        // Unreachable: a record that was found is in the message.
        self.message
            .get(self.fields.rdata..)
            .and_then(|octets| octets.get(..usize::from(self.fields.length)))
            .unwrap_or(&[])
    }
}

impl fmt::Debug for Record<'_> {
    fn fmt(&self, f: &mut fmt::Formatter<'_>) -> fmt::Result {
        f.debug_struct("Record")
            .field("offset", &self.offset())
            .field("section", &self.section())
            .field("index", &self.index())
            .field("owner", &self.owner())
            .field("record_type", &self.record_type())
            .field("class", &self.class())
            .field("ttl", &self.ttl())
            .field("rdata_octets", &self.rdata_octets())
            .finish()
    }
}

/// Why a record of a message is rejected: see [`Records`].
///
/// It borrows the message. `Error::from` gives an [`Error`] that does not.
#[derive(Clone, Debug)]
pub struct RecordError<'a> {
    error: Error,
    offset: usize,
    record: Option<Record<'a>>,
}

impl<'a> RecordError<'a> {
    /// The error: of RDATA that is rejected that of [`Rdata::from_wire`], and otherwise one whose status is [`Status::Record`] or
    /// [`Status::Limit`].
    #[must_use]
    pub fn error(&self) -> Error {
        self.error
    }

    /// The status of the error.
    #[must_use]
    pub fn status(&self) -> Status {
        self.error.status()
    }

    /// The offset in the message of the record.
    #[must_use]
    pub fn offset(&self) -> usize {
        self.offset
    }

    /// The record, if its RDATA alone is rejected. `None` if the record itself is damaged or has too many labels and compression
    /// pointers: no record follows.
    #[must_use]
    pub fn record(&self) -> Option<Record<'a>> {
        self.record
    }
}

impl fmt::Display for RecordError<'_> {
    fn fmt(&self, f: &mut fmt::Formatter<'_>) -> fmt::Result {
        match self.record {
            Some(record) => write!(
                f,
                "{} of the {} section, {} {}: {}",
                record.index(),
                record.section(),
                record.owner(),
                record.record_type(),
                self.error
            ),
            None => write!(f, "the record at offset {}: {}", self.offset, self.error),
        }
    }
}

impl core::error::Error for RecordError<'_> {}

impl From<RecordError<'_>> for Error {
    fn from(error: RecordError<'_>) -> Error {
        error.error
    }
}
