//! What calls that fill a buffer have in common.

use alloc::string::String;
use alloc::vec::Vec;

use dns_rdata_sys::{DNS_RDATA_BUFFER, DNS_RDATA_MEMORY, DNS_RDATA_NOT_UTF8, DNS_RDATA_OK};

use crate::Error;

/// Fills the caller's buffer by a call, which returns a status and sets the number of octets. Returns that number.
pub(crate) fn fill(
    out: &mut [u8],
    call: impl FnOnce(*mut u8, usize, &mut usize) -> u32,
    error: impl FnOnce(u32) -> Error,
) -> Result<usize, Error> {
    let mut count = 0;
    match call(out.as_mut_ptr(), out.len(), &mut count) {
        DNS_RDATA_OK => Ok(count),
        DNS_RDATA_BUFFER => Err(Error::too_small(count)),
        status => Err(error(status)),
    }
}

/// The octets that `fill` puts into a buffer, which is made as large as they need.
pub(crate) fn octets(
    first: usize,
    mut fill: impl FnMut(&mut [u8]) -> Result<usize, Error>,
) -> Result<Vec<u8>, Error> {
    let mut out = Vec::new();
    let mut room = first;
    loop {
        out.try_reserve_exact(room)
            .map_err(|_| Error::of_status(DNS_RDATA_MEMORY))?;
        out.resize(room, 0);
        match fill(&mut out) {
            Ok(count) => {
                out.truncate(count);
                return Ok(out);
            }
            Err(error) => match error.needed() {
                Some(needed) if needed > room => room = needed,
                _ => return Err(error),
            },
        }
        out.clear();
    }
}

/// The text that `fill` puts into a buffer.
pub(crate) fn text(fill: impl FnMut(&mut [u8]) -> Result<usize, Error>) -> Result<String, Error> {
    // Unreachable: texts of the library are UTF-8.
    String::from_utf8(octets(128, fill)?).map_err(|_| Error::of_status(DNS_RDATA_NOT_UTF8))
}
