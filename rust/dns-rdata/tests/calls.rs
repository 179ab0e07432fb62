//! Every call of the crate, with values that were calculated by hand or are from RFCs.

use std::cmp::Ordering;
use std::collections::{BTreeSet, HashSet};
use std::hash::{DefaultHasher, Hash, Hasher};

use dns_rdata::{
    Error, Name, Part, Rdata, RdataBuf, Record, RecordError, RecordType, Records, Status,
};

const A: RecordType = RecordType::A;
const MX: RecordType = RecordType::MX;
const TXT: RecordType = RecordType::TXT;
const OPT: RecordType = RecordType::OPT;

// A name at offset 0, and MX at offset 17 whose name is a compression pointer to it.
const MESSAGE: &[u8] = b"\x03WWW\x07example\x03com\x00\x00\x0a\xc0\x00";

fn mx() -> Rdata<'static> {
    Rdata::from_wire(MESSAGE, 17, 4, MX).unwrap()
}

fn whole(octets: &[u8], record_type: RecordType) -> Rdata<'_> {
    Rdata::from_octets(octets, record_type).unwrap()
}

fn name(text: &str) -> Name {
    text.parse().unwrap()
}

fn parsed(
    text: impl AsRef<[u8]>,
    record_type: RecordType,
    origin: Option<&Name>,
) -> Result<Vec<u8>, Status> {
    RdataBuf::from_text(text, record_type, origin)
        .map(RdataBuf::into_octets)
        .map_err(|error| error.status())
}

fn hash(value: &impl Hash) -> u64 {
    let mut hasher = DefaultHasher::new();
    value.hash(&mut hasher);
    hasher.finish()
}

#[test]
fn types() {
    assert_eq!("MX".parse(), Ok(MX));
    assert_eq!("Loc".parse(), Ok(RecordType(29)));
    assert_eq!("TYPE15".parse(), Ok(MX));
    assert_eq!(
        "mxx".parse::<RecordType>().unwrap_err().status(),
        Status::NoType
    );
    assert_eq!(
        "".parse::<RecordType>().unwrap_err().status(),
        Status::NoType
    );
    assert_eq!(
        format!("{MX} {} {:>6}", RecordType(4711), A),
        "MX TYPE4711      A"
    );
    assert_eq!((u16::from(MX), RecordType::from(15)), (15, MX));
}

#[test]
fn all_types_with_names_are_constants() {
    let named: Vec<RecordType> = (0..=u16::MAX)
        .map(RecordType)
        .filter(|it| it.to_string() != format!("TYPE{}", it.0))
        .collect();
    assert_eq!(named, RecordType::NAMED);
    for record_type in named {
        assert_eq!(record_type.to_string().parse(), Ok(record_type));
    }
    assert_eq!(RecordType::NSEC3PARAM.to_string(), "NSEC3PARAM");
}

#[test]
fn rdata_is_checked() {
    let status = |octets, offset, length, record_type| {
        Rdata::from_wire(octets, offset, length, record_type)
            .map(|_| ())
            .map_err(|error| error.status())
    };
    let octets = &[10, 0, 0, 1][..];
    assert_eq!(status(octets, 0, 4, A), Ok(()));
    assert_eq!(status(octets, 0, 3, A), Err(Status::Length));
    assert_eq!(status(octets, 5, 4, A), Err(Status::MissingOctets));
    assert_eq!(status(octets, usize::MAX, 4, A), Err(Status::MissingOctets));
    assert_eq!(status(octets, 0, 4, RecordType::ANY), Err(Status::Never));
    assert_eq!(status(&[], 0, 0, OPT), Ok(()));
    assert_eq!(status(&[], 0, 0, RecordType::ZERO), Ok(()));
    assert_eq!(
        Rdata::from_octets(&[0; 65536], TXT).unwrap_err().status(),
        Status::TooLong
    );
    assert_eq!(
        (mx().record_type(), mx().offset(), mx().as_octets()),
        (MX, 17, &MESSAGE[17..])
    );
}

#[test]
fn errors_have_their_numbers() {
    let rejected =
        |octets, length, record_type| Rdata::from_wire(octets, 0, length, record_type).unwrap_err();
    let numbers = |error: Error| {
        (
            error.status(),
            error.cause(),
            error.offset(),
            error.read(),
            error.expected(),
        )
    };
    let length = |octets, length: u16, record_type, cause, offset| {
        let expected = (
            Status::Length,
            cause,
            Some(offset),
            Some(offset),
            Some(usize::from(length)),
        );
        assert_eq!(numbers(rejected(octets, length, record_type)), expected);
    };
    length(&[192, 0, 2], 4, A, Some(Status::MissingOctets), 3); // the message ends inside the RDATA
    length(&[0, 10, 0xc0, 4, 0], 4, MX, Some(Status::Name), 2); // a compression pointer forward
    length(
        b"\x00\x05issu-ca",
        9,
        RecordType::CAA,
        Some(Status::CaaTag),
        7,
    );
    length(
        &[0, 0, 0, 1, 0, 4, 0, 1, 0x40],
        9,
        RecordType::CSYNC,
        Some(Status::CsyncFlags),
        6,
    );
    length(&[192, 0, 2, 1, 0], 5, A, None, 4); // RDATA longer than the record
    let never = rejected(&[1], 1, RecordType::ANY);
    assert_eq!(
        numbers(never),
        (Status::Never, Some(Status::Never), Some(0), None, None)
    );
    assert_eq!(
        (never.number(), rejected(&[1], 1, A).number()),
        (Some(255), None)
    );
    assert_eq!(
        rejected(&[0, 0, 0, 1, 0, 4], 6, RecordType::CSYNC).number(),
        Some(4)
    );
}

#[test]
fn errors_are_printed() {
    let printed = |octets, length, record_type| {
        Rdata::from_wire(octets, 0, length, record_type)
            .unwrap_err()
            .to_string()
    };
    assert_eq!(
        printed(&[1, 2, 3, 4, 5], 5, A),
        "wrong length of RDATA: 4 octets read, 5 expected"
    );
    assert_eq!(
        printed(&[0, 0, 0, 1, 0, 4, 0, 1, 0x40], 9, RecordType::CSYNC),
        "wrong length of RDATA: 6 octets read, 9 expected: unknown CSYNC flags (4) at offset 6"
    );
    assert_eq!(
        printed(&[0, 0, 0, 1, 0, 4], 6, RecordType::CSYNC),
        "unknown CSYNC flags (4) at offset 6"
    );
    assert_eq!(
        printed(&[], 0, RecordType::ANY),
        "RDATA of this type is never read (255)"
    );
    let error = mx().write_wire(&mut [0; 18]).unwrap_err();
    assert_eq!(
        error.to_string(),
        "the buffer is too small: 19 octets are needed"
    );
    let error: std::io::Error = RdataBuf::from_text("10", MX, None).unwrap_err().into();
    assert_eq!(
        (error.kind(), error.to_string().as_str()),
        (std::io::ErrorKind::InvalidData, "a token is missing")
    );
}

#[test]
fn statuses_have_numbers() {
    let statuses: Vec<Status> = (1..100)
        .filter_map(Status::from_number)
        .filter(|&status| status != Status::Unknown)
        .collect();
    assert_eq!(statuses.len(), 28);
    assert!(statuses
        .iter()
        .all(|&status| Status::from_number(status.number()) == Some(status)));
    assert_eq!(
        (Status::Length.number(), Status::from_number(0)),
        (17, None)
    );
}

#[test]
fn compression_pointers_are_followed() {
    assert_eq!(mx().to_text(), Ok("10 WWW.example.com.".to_string()));
    assert_eq!(
        mx().to_wire(),
        Ok(b"\x00\x0a\x03WWW\x07example\x03com\x00".to_vec())
    );
    assert_eq!(
        mx().to_canonical(),
        Ok(b"\x00\x0a\x03www\x07example\x03com\x00".to_vec())
    );
    let buf = mx().to_buf().unwrap();
    assert_eq!((buf.as_rdata(), buf.record_type()), (mx(), MX));
}

#[test]
fn texts() {
    let text = |octets, record_type| whole(octets, record_type).to_text().unwrap();
    assert_eq!(text(b"\x03a \"\x00", TXT), r#""a \"" """#);
    assert_eq!(text(b"\x00\x0a\x01x\x00", MX), "10 x.");
    assert_eq!(text(b"\xab\xcd", RecordType(4711)), "\\# 2 abcd");
    assert_eq!(text(b"", OPT), "\\# 0");
    let long = [b'x'; 256].map(|_| 255);
    assert_eq!(text(&long, TXT).len(), 4 * 255 + 2);
}

#[test]
fn buffers_of_the_caller() {
    let mut out = [7; 32];
    assert_eq!(mx().write_wire(&mut out), Ok(19));
    assert_eq!(&out[..20], b"\x00\x0a\x03WWW\x07example\x03com\x00\x07");
    assert_eq!(mx().write_text(&mut out), Ok(19));
    assert_eq!(&out[..20], b"10 WWW.example.com.\0");
    assert_eq!(
        mx().write_text(&mut [0; 19]).unwrap_err().needed(),
        Some(20)
    );
    assert_eq!(
        mx().write_canonical(&mut []).unwrap_err().needed(),
        Some(19)
    );
    assert_eq!(mx().write_canonical(&mut out[..19]), Ok(19));
}

#[test]
fn names_in_rdata() {
    let found = mx().name(0).unwrap();
    assert_eq!((found.offset, found.name.as_octets()), (19, &MESSAGE[..17]));
    assert_eq!(
        (mx().name(1), mx().names().collect::<Vec<_>>()),
        (None, vec![found])
    );
    let soa = [&b"\x01x\0\x01Y\xc0\0"[..], &[0; 20]].concat();
    let names: Vec<_> = whole(&soa, RecordType::SOA)
        .names()
        .map(|found| (found.offset, found.name.to_string()))
        .collect();
    assert_eq!(names, [(0, "x.".to_string()), (3, "Y.x.".to_string())]);
    assert_eq!(whole(&[10, 0, 0, 1], A).names().count(), 0);
}

#[test]
fn parts() {
    let options = b"\x00\x0a\x00\x02\x01\x02\x00\x0c\x00\x00";
    let opt = whole(options, OPT);
    assert_eq!(
        opt.part(0),
        Some(Part {
            number: 10,
            offset: 4,
            value: &[1, 2]
        })
    );
    assert_eq!(
        opt.part(1),
        Some(Part {
            number: 12,
            offset: 10,
            value: &[]
        })
    );
    assert_eq!(
        (opt.part(2), opt.part(usize::MAX), opt.name(0)),
        (None, None, None)
    );
    assert_eq!(
        opt.parts().collect::<Vec<_>>(),
        [opt.part(0), opt.part(1)].map(Option::unwrap)
    );
    assert_eq!(
        (
            whole(&options[..8], OPT).parts().count(),
            mx().parts().count(),
            mx().part(0)
        ),
        (0, 0, None)
    );
    let svcb = whole(b"\x00\x01\x00\x00\x03\x00\x02\x01\xbb", RecordType::SVCB);
    assert_eq!(
        svcb.part(0),
        Some(Part {
            number: 3,
            offset: 7,
            value: &[1, 0xbb]
        })
    );
    assert_eq!(svcb.name(0).unwrap().offset, 2);
    let mut parts = svcb.parts();
    assert_eq!(
        (parts.by_ref().count(), parts.next(), parts.next()),
        (1, None, None)
    );
}

#[test]
fn many_parts_in_linear_time() {
    let least_time = |count: usize| {
        let options = [0, 12, 0, 0].repeat(count);
        let opt = whole(&options, OPT);
        let walk = |_| {
            let start = std::time::Instant::now();
            let there = opt
                .parts()
                .filter(|part| part.number == 12 && part.value.is_empty());
            assert_eq!(there.count(), count);
            start.elapsed()
        };
        (0..9).map(walk).min().unwrap()
    };
    // Eight times as many take eight times as long, and not 64 times.
    assert!(least_time(16_000) < 32 * (least_time(2_000) + std::time::Duration::from_micros(100)));
}

#[test]
fn strings() {
    let strings = |octets, record_type| whole(octets, record_type).strings().collect::<Vec<_>>();
    assert_eq!(strings(b"\x01a\x00\x02bc", TXT), [&b"a"[..], b"", b"bc"]);
    assert_eq!(strings(b"\x01a\x00", RecordType::HINFO), [&b"a"[..], b""]);
    assert_eq!(
        strings(b"\0\x01\0\x02\x01u\x03E2U\x01!\0", RecordType::NAPTR),
        [&b"u"[..], b"E2U", b"!"]
    );
    assert!(mx().strings().next().is_none());
}

#[test]
fn texts_are_parsed() {
    let origin = name("example.com.");
    assert_eq!(
        parsed("10 mail", MX, Some(&origin)),
        Ok(b"\x00\x0a\x04mail\x07example\x03com\x00".to_vec())
    );
    assert_eq!(
        parsed("( 10 ; a comment\n @ )", MX, Some(&origin)),
        Ok(b"\x00\x0a\x07example\x03com\x00".to_vec())
    );
    assert_eq!(
        parsed("10 mail", MX, None),
        Ok(b"\x00\x0a\x04mail\x00".to_vec())
    );
    assert_eq!(
        parsed(br#""a \"" b\255 """#, TXT, None),
        Ok(b"\x03a \"\x02b\xff\x00".to_vec())
    );
    assert_eq!(parsed(b"\xff", TXT, None), Ok(b"\x01\xff".to_vec()));
    assert_eq!(parsed(r"\# 4 0a000001", A, None), Ok(vec![10, 0, 0, 1]));
    assert_eq!(parsed(r"\# 0", OPT, None), Ok(vec![]));
    assert_eq!(
        parsed("1 . alpn=h2 port=443", RecordType::HTTPS, None),
        Ok(b"\x00\x01\x00\x00\x01\x00\x03\x02h2\x00\x03\x00\x02\x01\xbb".to_vec())
    );
    assert_eq!(parsed("10", MX, Some(&origin)), Err(Status::MissingWord));
    assert_eq!(
        parsed("ten mail", MX, Some(&origin)),
        Err(Status::WrongWord)
    );
    assert_eq!(parsed("x", OPT, None), Err(Status::UnsupportedType));
    assert_eq!(parsed(r"\# 3 0a0000", A, None), Err(Status::WrongValue));
    assert_eq!(
        RdataBuf::from_text("x", OPT, None).unwrap_err().number(),
        Some(41)
    );
    let long = format!(r"\# 600 {}", "00".repeat(600));
    assert_eq!(parsed(long, RecordType::NULL, None), Ok(vec![0; 600]));
}

#[test]
fn texts_are_read_again() {
    let svcb = whole(b"\x00\x05\x01X\x00\x00\x01\x00\x03\x02h,", RecordType::SVCB);
    let buf =
        RdataBuf::from_text(svcb.to_text().unwrap(), RecordType::SVCB, Some(&name("o."))).unwrap();
    assert_eq!(buf.as_octets(), svcb.to_wire().unwrap());
    assert_eq!(buf.to_string(), svcb.to_text().unwrap());
    assert_eq!(
        format!("{:?}", whole(b"\xab", RecordType(4711)).to_buf().unwrap()),
        r"RdataBuf(TYPE4711 \# 1 ab)"
    );
}

#[test]
fn names_of_octets() {
    assert_eq!(
        Name::from_octets(b"\x01a\x00").map(|name| name.to_string()),
        Ok("a.".to_string())
    );
    assert_eq!(Name::from_octets(b"\x00"), Ok(Name::root()));
    let longest = [&[63; 1][..], &[b'a'; 63]].concat().repeat(3);
    let longest = [longest, [&[61; 1][..], &[b'a'; 61], &[0]].concat()].concat();
    assert_eq!(
        (
            longest.len(),
            Name::from_octets(&longest).map(|name| name.as_octets().len())
        ),
        (255, Ok(255))
    );
    for damaged in [
        &b""[..],
        b"\x01a",
        b"\x00\x00",
        b"\x01a\x00\x00",
        b"\x01a\xc0\x00",
        b"\xc0\x00",
        b"\x40\x00",
    ] {
        assert_eq!(
            Name::from_octets(damaged).unwrap_err().status(),
            Status::Name,
            "{damaged:?}"
        );
    }
    assert!(Name::from_octets(&[0; 70000]).is_err());
    assert!(Name::from_octets(&[b"\x01a".repeat(127), b"\x01\x00".to_vec()].concat()).is_err());
}

#[test]
fn names_of_texts() {
    let origin = name("example.");
    let octets = |text, origin| Name::parse(text, origin).map(|name| name.as_octets().to_vec());
    assert_eq!(
        octets("a", Some(&origin)),
        Ok(b"\x01a\x07example\0".to_vec())
    );
    assert_eq!(octets("a.", Some(&origin)), Ok(b"\x01a\0".to_vec()));
    assert_eq!(octets("@", Some(&origin)), Ok(b"\x07example\0".to_vec()));
    assert_eq!(octets(r"a\.\032\;b", None), Ok(b"\x05a. ;b\0".to_vec()));
    assert_eq!(octets(r"\#", None), Ok(b"\x01#\0".to_vec()));
    assert_eq!(octets(".", None), Ok(b"\0".to_vec()));
    for wrong in [
        "",
        " ",
        "a b",
        "a ",
        "\"a\"",
        "(a)",
        "a;",
        "a..b",
        r"a\",
        "a\n",
        r"\# 3 016100",
        r"a\\;",
    ] {
        assert!(Name::parse(wrong, Some(&origin)).is_err(), "{wrong:?}");
    }
    for octet in 0..=255u8 {
        let name = Name::from_octets(&[2, octet, b'x', 0]).unwrap();
        assert_eq!(
            name.to_string().parse::<Name>().unwrap().as_octets(),
            name.as_octets()
        );
    }
    assert_eq!(name(r"\#.").to_string().parse(), Ok(name(r"\035")));
    assert_eq!(
        format!("{:?} {:>4}", name("a."), name("b.")),
        "Name(a.)   b."
    );
}

// The order of the example in RFC 4034, section 6.1.
#[test]
fn names_are_ordered() {
    let sorted = [
        "example.",
        "a.example.",
        "yljkjljk.a.example.",
        "Z.a.example.",
        "zABC.a.EXAMPLE.",
        "z.example.",
        r"\001.z.example.",
        "*.z.example.",
        r"\200.z.example.",
    ]
    .map(name);
    for (i, first) in sorted.iter().enumerate() {
        for (j, second) in sorted.iter().enumerate() {
            assert_eq!(first.cmp(second), i.cmp(&j), "{first} {second}");
        }
    }
    assert_eq!(name("A.b."), name("a.B."));
    assert_eq!(hash(&name("A.b.")), hash(&name("a.B.")));
    assert_ne!(name("a.b."), name("a.c."));
    assert!(name(".").is_root() && !name("a").is_root());
    let most = Name::from_octets(&[b"\x01a".repeat(127), vec![0]].concat()).unwrap();
    assert_eq!(
        (most.labels().count(), most.cmp(&most)),
        (127, Ordering::Equal)
    );
}

#[test]
fn rdata_is_compared() {
    let [a, b, c] = [
        &b"\x00\x0a\x01A\x00"[..],
        b"\x00\x0a\x01a\x00",
        b"\x00\x0a\x01b\x00",
    ]
    .map(|it| whole(it, MX));
    assert_eq!((a == b, a == c, a.cmp(&b), a.cmp(&c), c.cmp(&a)), {
        (
            true,
            false,
            Ordering::Equal,
            Ordering::Less,
            Ordering::Greater,
        )
    });
    assert_eq!((hash(&a) == hash(&b), hash(&a) == hash(&c)), (true, false));
    let other = whole(b"\x00\x0a\x01a\x00", RecordType(4711));
    assert_eq!(
        (a == other, a.cmp(&other), hash(&a) == hash(&other)),
        (false, Ordering::Less, false)
    );
    assert_eq!([a, b, c].into_iter().collect::<HashSet<_>>().len(), 2);
    assert_eq!(
        [c, b, a]
            .into_iter()
            .collect::<BTreeSet<_>>()
            .into_iter()
            .collect::<Vec<_>>(),
        [a, c]
    );
    let keys = [a, b, c, other].map(|rdata| rdata.to_key().unwrap());
    let bufs = [a, b, c, other].map(|rdata| rdata.to_buf().unwrap());
    for (i, first) in [a, b, c, other].iter().enumerate() {
        for (j, second) in [a, b, c, other].iter().enumerate() {
            assert_eq!(keys[i].cmp(&keys[j]), first.cmp(second));
            assert_eq!(
                (bufs[i].cmp(&bufs[j]), bufs[i] == bufs[j]),
                (first.cmp(second), first == second)
            );
        }
    }
    assert_eq!(
        (keys[1].as_octets(), keys[1].record_type()),
        (&b"\x00\x0a\x01a\x00"[..], MX)
    );
    assert_eq!(
        (
            hash(&keys[0]) == hash(&keys[1]),
            hash(&bufs[0]) == hash(&bufs[1])
        ),
        (true, true)
    );
}

// SVCB whose canonical octets are more than 512, and more than 65535, since its name is a compression pointer.
#[test]
fn long_rdata_is_hashed() {
    for size in [600, 65000, 65520] {
        let message = |case: &[u8], last: u8| {
            let mut octets = [&[40], case.repeat(40).as_slice(), &[0, 0, 1, 0xc0, 0]].concat();
            octets.extend([0xff, 0, (size >> 8) as u8, size as u8]);
            octets.resize(octets.len() + size, 0);
            *octets.last_mut().unwrap() = last;
            octets
        };
        let messages = [message(b"a", 0), message(b"A", 0), message(b"a", 1)];
        let [a, b, c] = [0, 1, 2].map(|i| {
            Rdata::from_wire(&messages[i], 42, (size + 8) as u16, RecordType::SVCB)
                .expect("SVCB with one parameter")
        });
        assert_eq!((a == b, a == c, a < c), (true, false, true));
        assert_eq!((hash(&a) == hash(&b), hash(&a) == hash(&c)), (true, false));
        let is_too_long = size > 65500;
        assert_eq!(
            a.to_canonical()
                .is_err_and(|error| error.status() == Status::TooLong),
            is_too_long
        );
        assert_eq!(a.to_text().is_err(), is_too_long);
        assert_eq!(
            format!("{a:?}") == "Rdata(SVCB: more than 65535 octets)",
            is_too_long
        );
    }
}

#[test]
fn values_are_sent_to_threads() {
    fn is_send_and_sync<T: Send + Sync>() {}
    is_send_and_sync::<(Rdata<'_>, RdataBuf, Name, Error, RecordType)>();
    is_send_and_sync::<(Records<'_>, Record<'_>, RecordError<'_>)>();
    let threads: Vec<_> = (0..4u8)
        .map(|n| {
            std::thread::spawn(move || {
                for i in 0..1000u32 {
                    let octets = [10, n, (i >> 8) as u8, i as u8];
                    assert_eq!(
                        whole(&octets, A).to_text(),
                        Ok(format!("10.{n}.{}.{}", i >> 8, i & 255))
                    );
                }
            })
        })
        .collect();
    for thread in threads {
        thread.join().unwrap();
    }
}
