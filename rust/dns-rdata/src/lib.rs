//! The data of DNS resource records (RDATA): checked, compared, printed and parsed, by a library in which every function is proved.
//!
//! - [`Rdata`] is the RDATA of a record in a message, which was checked. It gives the text of a zone file, uncompressed and canonical
//!   octets, and the names, options, parameters and strings in it; it is equal, ordered and hashed by its canonical octets.
//! - [`RdataBuf`] has octets of its own, as from a text.
//! - [`CanonicalKey`] is made for sorting and looking up much RDATA.
//! - [`Records`] goes over the records of a message, each a [`Record`].
//! - [`Name`] is a domain name, [`RecordType`] a type, and [`Error`] why octets or a text are rejected.
//!
//! ```
//! use dns_rdata::{Rdata, RecordType};
//!
//! let message = [192, 0, 2, 1];
//! let a = Rdata::from_wire(&message, 0, 4, RecordType::A)?;
//! assert_eq!(a.to_text()?, "192.0.2.1");
//! # Ok::<(), dns_rdata::Error>(())
//! ```
//!
//! # What is proved
//!
//! Every function that this crate calls is proved: for each message, offset, RDLENGTH and type it returns what `dns_rdata.h` of
//! `dns-rdata-sys` says, reads and writes nothing but the buffers that it is given, and returns. Not proved is this crate itself:
//! the declarations, the calls over slices, each with its reason, and what it does by itself: the order of [`Name`], and
//! [`Rdata::strings`].
//!
//! # Panics
//!
//! No call panics, whatever the octets and texts are. If an allocation fails, calls that return a `Result` return
//! [`Status::Memory`], printing fails, so that `to_string` panics, and hashing RDATA of more than 512 canonical octets aborts.
//!
//! # Without `std`
//!
//! The crate is `no_std`, and needs `alloc`. The feature `std`, which is a default, makes an [`Error`] a `std::io::Error`. The
//! library takes memory from `malloc` and `free`; a program without them links `rattle_alloc` and its like of its own
//! (`DNS_RDATA_HEAP` of `dns-rdata-sys`).
#![no_std]

extern crate alloc;
#[cfg(feature = "std")]
extern crate std;

mod buf;
mod call;
mod error;
mod iter;
mod key;
mod name;
mod rdata;
mod record_type;
mod records;

pub use buf::RdataBuf;
pub use error::{Error, Status, TextFault};
pub use iter::{FoundName, Names, Part, Parts, Strings};
pub use key::CanonicalKey;
pub use name::{Labels, Name};
pub use rdata::Rdata;
pub use record_type::RecordType;
pub use records::{Record, RecordError, Records, Section};

// The example of the README is run with the other examples.
#[cfg(doctest)]
#[doc = include_str!("../README.md")]
struct Readme;
