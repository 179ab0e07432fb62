//! The walk over the records of a message, with messages that were made by hand.

use dns_rdata::{Name, Record, RecordError, RecordType, Records, Section, Status};

// The message of the example: ten records that are right, and A of three octets.
const RESPONSE: &[u8] = include_bytes!("../examples/response.bin");

// A message without questions: its opcode, how many records each section has, and the records.
fn message(opcode: u8, counts: [u8; 3], records: &[&[u8]]) -> Vec<u8> {
    let mut octets = vec![0; 12];
    octets[2] = 0x80 | opcode << 3;
    for (section, count) in counts.into_iter().enumerate() {
        octets[7 + 2 * section] = count;
    }
    octets.extend(records.concat());
    octets
}

// A record: its owner, the number of its type, its class, and its RDATA. The TTL is 60.
fn record(owner: &[u8], record_type: u8, class: u8, rdata: &[u8]) -> Vec<u8> {
    let fixed = [0, record_type, 0, class, 0, 0, 0, 60, 0, rdata.len() as u8];
    [owner, &fixed, rdata].concat()
}

fn walk(message: &[u8]) -> Vec<Result<Record<'_>, RecordError<'_>>> {
    Records::new(message).unwrap().collect()
}

fn status(message: &[u8]) -> Result<(), Status> {
    Records::new(message)
        .map(|_| ())
        .map_err(|error| error.status())
}

#[test]
fn records_are_told() {
    let found = walk(RESPONSE);
    let places: Vec<(Section, usize)> = found
        .iter()
        .map(|item| match item {
            Ok(record) => (record.section(), record.index()),
            Err(error) => error
                .record()
                .map(|it| (it.section(), it.index()))
                .expect("the RDATA alone is rejected"),
        })
        .collect();
    let answers = (0..7).map(|index| (Section::Answer, index));
    let additional = (0..3).map(|index| (Section::Additional, index));
    assert!(answers
        .chain([(Section::Authority, 0)])
        .chain(additional)
        .eq(places));
    let mx = found[0].clone().unwrap();
    assert_eq!(mx.owner(), "example.com".parse::<Name>().unwrap());
    assert_eq!((mx.offset(), mx.rdata_offset()), (29, 41));
    assert_eq!(
        (mx.record_type(), mx.class(), mx.ttl()),
        (RecordType::MX, 1, 300)
    );
    assert_eq!(mx.rdata_octets(), b"\x00\x0a\x04mail\xc0\x0c");
    let rdata = mx.rdata().unwrap();
    assert_eq!(rdata.to_text(), Ok("10 mail.example.com.".to_string()));
    assert_eq!((rdata.offset(), rdata.as_octets()), (41, mx.rdata_octets()));
    let opt = found[10].clone().unwrap();
    assert_eq!((opt.owner(), opt.class()), (Name::root(), 1232));
    assert_eq!(
        opt.rdata().unwrap().parts().map(|it| it.number).next(),
        Some(10)
    );
}

#[test]
fn walks_go_on_after_rdata_that_is_rejected() {
    let found = walk(RESPONSE);
    assert_eq!(
        (found.len(), found.iter().filter(|it| it.is_err()).count()),
        (11, 1)
    );
    let error = found[6].clone().unwrap_err();
    assert_eq!(
        (
            error.status(),
            error.error().read(),
            error.error().expected()
        ),
        (Status::Length, Some(4), Some(3))
    );
    let record = error.record().unwrap();
    assert_eq!((record.record_type(), record.ttl()), (RecordType::A, 300));
    assert_eq!(
        (record.rdata(), record.rdata_octets(), error.offset()),
        (None, &[192, 0, 2][..], record.offset())
    );
    assert_eq!(
        error.to_string(),
        "6 of the answer section, example.com. A: wrong length of RDATA: 4 octets read, 3 expected"
    );
    assert_eq!(dns_rdata::Error::from(error.clone()), error.error());
}

#[test]
fn walks_end_at_a_damaged_record() {
    let a = record(b"\0", 1, 1, &[192, 0, 2, 1]);
    // The second owner is a compression pointer to itself, and a third record follows.
    let damaged = message(0, [3, 0, 0], &[&a, b"\xc0\x1b\0\x01\0\x01\0\0\0\0\0\0", &a]);
    let found = walk(&damaged);
    assert_eq!((found.len(), found[0].is_ok()), (2, true));
    let error = found[1].clone().unwrap_err();
    assert_eq!((error.status(), error.offset()), (Status::Record, 27));
    assert!(error.record().is_none());
    assert_eq!(
        error.to_string(),
        "the record at offset 27: a damaged record"
    );
    // The message ends inside the RDATA, or counts a record too many.
    for (counts, size) in [([1, 0, 0], a.len() - 1), ([2, 0, 0], a.len())] {
        let short = message(0, counts, &[&a[..size]]);
        let found = walk(&short);
        let error = found.last().unwrap().clone().unwrap_err();
        assert_eq!(error.status(), Status::Record);
    }
    let mut records = Records::new(&damaged).unwrap();
    assert_eq!((records.offset(), records.size_hint()), (12, (0, Some(3))));
    assert_eq!(records.by_ref().count(), 2);
    assert_eq!((records.offset(), records.size_hint()), (27, (0, Some(0))));
    assert!(records.next().is_none());
    records.set_limit(7);
    assert!(records.next().is_none());
}

#[test]
fn messages_are_damaged() {
    assert_eq!(status(&[]), Err(Status::Header));
    assert_eq!(status(&[0; 11]), Err(Status::Header));
    assert_eq!(status(&[0; 12]), Ok(()));
    let mut question = [0; 16];
    question[5] = 1;
    assert_eq!(status(&question), Err(Status::Question));
    assert_eq!(status(&[&question[..], &[0]].concat()), Ok(()));
    assert_eq!(walk(&[0; 12]).len(), 0);
}

#[test]
fn labels_and_pointers_are_counted() {
    let first = record(b"\x01a\0", 1, 1, &[192, 0, 2, 1]);
    // MX whose owner and exchange are compression pointers to the first owner.
    let mx = record(b"\xc0\x0c", 15, 1, b"\0\x0a\xc0\x0c");
    let message = message(0, [2, 1, 0], &[&first, &mx, &mx]);
    let limited = |limit| {
        let mut records = Records::new(&message).unwrap();
        records.set_limit(limit);
        records
            .map(|it| it.map(|_| ()).map_err(|error| error.status()))
            .collect::<Vec<_>>()
    };
    // 1 label, and twice a pointer and a label in each of two names.
    assert_eq!(limited(9), [Ok(()); 3]);
    assert_eq!(limited(usize::MAX), [Ok(()); 3]);
    assert_eq!(limited(8), [Ok(()), Ok(()), Err(Status::Limit)]);
    assert_eq!(limited(4), [Ok(()), Err(Status::Limit)]);
    assert_eq!(limited(0), [Err(Status::Limit)]);
}

// RFC 2136, sections 2.4 and 2.5: class ANY or NONE without data.
#[test]
fn updates_have_records_without_data() {
    let (wrong, right) = (record(b"\0", 1, 1, b""), record(b"\0", 1, 255, b""));
    let update = message(5, [1, 1, 0], &[&wrong, &right]);
    let found = walk(&update);
    assert_eq!(found[0].clone().unwrap_err().status(), Status::Length);
    let without = found[1].clone().unwrap();
    assert_eq!(
        (without.rdata(), without.class(), without.rdata_octets()),
        (None, 255, &b""[..])
    );
    assert!(format!("{without:?}").starts_with("Record { offset: 23, section: Authority, index: 0"));
}

// The example's message with octets changed at random. What each call gives is tested in C (`c/tests/hostile.c`).
#[test]
fn walks_over_hostile_messages() {
    let mut seed = 1u64;
    let mut below = |most: usize| {
        seed = seed
            .wrapping_mul(6364136223846793005)
            .wrapping_add(1442695040888963407);
        (seed >> 33) as usize % most
    };
    let (mut right, mut rejected, mut damaged) = (0, 0, 0);
    for _ in 0..3000 {
        let mut octets = RESPONSE.to_vec();
        for _ in 0..below(6) {
            let at = below(octets.len());
            octets[at] = below(256) as u8;
        }
        let Ok(records) = Records::new(&octets) else {
            damaged += 1;
            continue;
        };
        for item in records {
            match item {
                Ok(record) => {
                    right += 1;
                    assert!(record.owner().as_octets().len() <= 255);
                    assert!(record.rdata().map_or(true, |it| it.to_text().is_ok()));
                }
                Err(error) => match error.record() {
                    Some(record) => {
                        rejected += 1;
                        assert!(record.rdata().is_none() && error.error().offset().is_some());
                    }
                    None => damaged += 1,
                },
            }
        }
    }
    assert!(right > 1000 && rejected > 1000 && damaged > 100);
}
