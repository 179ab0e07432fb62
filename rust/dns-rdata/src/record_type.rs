use core::fmt;
use core::str::FromStr;

use dns_rdata_sys::{dns_rdata_type_number, dns_rdata_type_text, DNS_RDATA_OK};

use crate::Error;

/// The type of a resource record, by its number (RFC 1035, section 3.2.2).
///
/// The constants are the types that the library has names for. Every other number is a type, too: its name is `TYPE` and the
/// number (RFC 3597, section 5), and its RDATA is any octets.
///
/// # Examples
///
/// ```
/// use dns_rdata::RecordType;
///
/// assert_eq!("MX".parse(), Ok(RecordType::MX));
/// assert_eq!("TYPE15".parse(), Ok(RecordType::MX));
/// assert_eq!(RecordType::from(4711).to_string(), "TYPE4711");
/// ```
#[derive(Clone, Copy, Debug, PartialEq, Eq, PartialOrd, Ord, Hash)]
pub struct RecordType(pub u16);

// The constants, and a list of all of them.
macro_rules! record_types {
    ($($name:ident $number:literal $meaning:literal)+) => {
        impl RecordType {
            /// All types that have a name, by their number.
            pub const NAMED: &'static [RecordType] = &[$(RecordType::$name),+];
            $(
                #[doc = concat!($number, ": ", $meaning, ".")]
                pub const $name: RecordType = RecordType($number);
            )+
        }
    };
}

record_types! {
    ZERO 0 "of no records; its RDATA has no octets"
    A 1 "an IPv4 address (RFC 1035, section 3.4.1)"
    NS 2 "a name server (RFC 1035, section 3.3.11)"
    CNAME 5 "the canonical name of an alias (RFC 1035, section 3.3.1)"
    SOA 6 "the start of a zone of authority (RFC 1035, section 3.3.13)"
    NULL 10 "any octets (RFC 1035, section 3.3.10)"
    PTR 12 "a name that is pointed to (RFC 1035, section 3.3.12)"
    HINFO 13 "a machine and its system (RFC 1035, section 3.3.2)"
    MX 15 "a mail exchange (RFC 1035, section 3.3.9)"
    TXT 16 "character strings (RFC 1035, section 3.3.14)"
    SIG 24 "a signature (RFC 2535, section 4)"
    KEY 25 "a public key (RFC 2535, section 3)"
    AAAA 28 "an IPv6 address (RFC 3596, section 2.1)"
    SRV 33 "a host of a service (RFC 2782)"
    NAPTR 35 "a rule that rewrites a name (RFC 3403, section 4)"
    CERT 37 "a certificate (RFC 4398, section 2)"
    DNAME 39 "another name for a subtree (RFC 6672, section 2.1)"
    OPT 41 "options of EDNS (RFC 6891, section 6.1)"
    DS 43 "the signer of a delegation (RFC 4034, section 5)"
    SSHFP 44 "the fingerprint of a host's key (RFC 4255, section 3)"
    RRSIG 46 "a signature of a record set (RFC 4034, section 3)"
    NSEC 47 "the next name of a zone (RFC 4034, section 4)"
    DNSKEY 48 "a public key of a zone (RFC 4034, section 2)"
    NSEC3 50 "the next hashed name of a zone (RFC 5155, section 3)"
    NSEC3PARAM 51 "how a zone hashes its names (RFC 5155, section 4)"
    TLSA 52 "a certificate of a service (RFC 6698, section 2.1)"
    SMIMEA 53 "a certificate of a mail user (RFC 8162, section 2)"
    CDS 59 "the DS that a child wants (RFC 7344, section 3.1)"
    CDNSKEY 60 "the DNSKEY that a child wants (RFC 7344, section 3.2)"
    OPENPGPKEY 61 "a public key of OpenPGP (RFC 7929, section 2)"
    CSYNC 62 "what a parent copies from a child zone (RFC 7477, section 2.1)"
    SVCB 64 "an endpoint of a service (RFC 9460, section 2)"
    HTTPS 65 "an endpoint of HTTPS (RFC 9460, section 9)"
    TSIG 250 "the signature of a message (RFC 8945, section 4.2)"
    IXFR 251 "asks for the changes of a zone (RFC 1995); its RDATA is never read"
    AXFR 252 "asks for a whole zone (RFC 5936); its RDATA is never read"
    ANY 255 "asks for all records (RFC 1035, section 3.2.3, where it is `*`); its RDATA is never read"
    CAA 257 "a property of a domain's issuers of certificates (RFC 8659, section 4.1)"
    ANAME 65305 "of private use: the name whose addresses the owner has"
}

impl From<u16> for RecordType {
    fn from(number: u16) -> RecordType {
        RecordType(number)
    }
}

impl From<RecordType> for u16 {
    fn from(record_type: RecordType) -> u16 {
        record_type.0
    }
}

impl FromStr for RecordType {
    type Err = Error;

    /// The type with this name of IANA's registry, in either case, or with the number after `TYPE`.
    ///
    /// # Errors
    ///
    /// [`Status::NoType`](crate::Status::NoType) if the text is not the name of a type.
    fn from_str(text: &str) -> Result<RecordType, Error> {
        let mut number = 0;
        // SAFETY: the pointer and the length are a `&str`'s, and `number` is written by this call alone.
        let status =
            unsafe { dns_rdata_type_number(text.as_ptr().cast(), text.len(), &mut number) };
        match status {
            DNS_RDATA_OK => Ok(RecordType(number)),
            _ => Err(Error::of_status(status)),
        }
    }
}

impl fmt::Display for RecordType {
    /// The name in capitals, or `TYPE` and the number.
    fn fmt(&self, f: &mut fmt::Formatter<'_>) -> fmt::Result {
        // The longest name is NSEC3PARAM, and after it the call writes a zero octet.
        let mut name = [0u8; 16];
        let mut count = 0;
        // SAFETY: the pointer and the length are an array's, and `count` is written by this call alone.
        let status = unsafe {
            dns_rdata_type_text(self.0, name.as_mut_ptr().cast(), name.len(), &mut count)
        };
        match core::str::from_utf8(name.get(..count).unwrap_or(&[])) {
            Ok(name) if status == DNS_RDATA_OK => f.pad(name),
            _ => Err(fmt::Error),
        }
    }
}
