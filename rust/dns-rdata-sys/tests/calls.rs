//! The raw calls link and run. What they return is tested in C (`c/tests` of the repository) and through `dns-rdata`.

use std::ffi::CStr;

use dns_rdata_sys::*;

#[test]
fn checks() {
    let mut why = dns_rdata_refusal::default();
    let message = [192, 0, 2, 1];
    let mut check = |length| {
        let data = dns_rdata {
            message: message.as_ptr(),
            message_length: message.len(),
            offset: 0,
            length,
            type_number: 1,
        };
        // SAFETY: the pointer and the length are an array's, and `why` is written by this call alone.
        unsafe { dns_rdata_check(&data, &mut why) }
    };
    assert_eq!(check(4), DNS_RDATA_OK);
    assert_eq!(check(3), DNS_RDATA_LENGTH);
    assert_eq!(
        (why.read, why.len, why.cause, why.offset),
        (4, 3, DNS_RDATA_OK, 4)
    );
}

#[test]
fn allocates() {
    let mut text = [0; 8];
    let mut count = 0;
    // SAFETY: the pointer and the length are an array's, and `count` is written by this call alone.
    let status = unsafe { dns_rdata_type_text(15, text.as_mut_ptr(), text.len(), &mut count) };
    assert_eq!((status, count), (DNS_RDATA_OK, 2));
    assert_eq!(
        text[..3]
            .iter()
            .map(|&octet| octet as u8)
            .collect::<Vec<_>>(),
        b"MX\0"
    );
}

#[test]
fn walks() {
    // A header that counts one answer, and A of the root.
    let message = b"\0\0\x80\0\0\0\0\x01\0\0\0\0\0\0\x01\0\x01\0\0\0\x3c\0\x04\xc0\0\x02\x01";
    let (octets, size) = (message.as_ptr(), message.len());
    let (mut records, mut record) = (dns_rdata_records::default(), dns_rdata_record::default());
    // SAFETY: the pointer and the length are an array's, and the calls write `records` and `record` alone.
    let statuses = unsafe {
        [
            dns_rdata_records_begin(octets, size, &mut records),
            dns_rdata_records_next(octets, size, &mut records, &mut record),
            dns_rdata_records_next(octets, size, &mut records, &mut record),
        ]
    };
    assert_eq!(statuses, [DNS_RDATA_OK, DNS_RDATA_OK, DNS_RDATA_ABSENT]);
    assert_eq!((record.owner, record.rdata, record.length), (12, 23, 4));
    assert_eq!(
        (record.section, record.index, record.type_number),
        (1, 0, 1)
    );
    assert_eq!((record.rrclass, record.ttl, record.has_data), (1, 60, 1));
}

#[test]
fn texts() {
    // SAFETY: the calls return static texts, which a zero octet ends.
    let (error, version) = unsafe {
        (
            CStr::from_ptr(dns_rdata_strerror(DNS_RDATA_NAME)),
            CStr::from_ptr(dns_rdata_version()),
        )
    };
    assert_eq!(error.to_str(), Ok("damaged domain name"));
    assert_eq!(version.to_str(), Ok(env!("CARGO_PKG_VERSION")));
}

#[test]
fn names() {
    let message = b"\x01x\0\x01Y\xc0\0";
    let (octets, size, mut count) = (message.as_ptr(), message.len(), 0);
    // SAFETY: the pointer and the length are an array's, and `count` is written by this call alone.
    let status = unsafe { dns_rdata_name_length(octets, size, 3, &mut count) };
    assert_eq!((status, count), (DNS_RDATA_OK, 4));
    let mut text = [0; 8];
    // SAFETY: the pointers and the lengths are arrays', and the call writes `text` and `count` alone.
    let status =
        unsafe { dns_rdata_name_text(octets, size, 3, text.as_mut_ptr(), text.len(), &mut count) };
    assert_eq!((status, count), (DNS_RDATA_OK, 4));
    let mut name = [0; 8];
    // SAFETY: the pointers and the lengths are arrays', and the call writes `name` and `count` alone.
    let status = unsafe {
        dns_rdata_name_from_text(
            text.as_ptr(),
            count,
            octets,
            0,
            name.as_mut_ptr(),
            name.len(),
            &mut count,
        )
    };
    assert_eq!((status, count), (DNS_RDATA_OK, 5));
    assert_eq!(name[..5], *b"\x01Y\x01x\0");
}
