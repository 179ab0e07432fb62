//! What hickory-proto's record data does, by running it:
//!
//!     hickory            reads lines `TYPE PLACE LENGTH OCTETS` (../run.py has the protocol)
//!     hickory rows       prints a line `NAME<tab>RESULT` for each thing that a row of docs/DIFFERENCES.md says of the original
//!
//! `hk` is the original (README.md). Debug assertions and overflow checks are on.

use std::alloc::{GlobalAlloc, Layout, System};
use std::collections::hash_map::DefaultHasher;
use std::fmt::{Debug, Display, Write};
use std::hash::{Hash, Hasher};
use std::io::BufRead;
use std::net::{IpAddr, Ipv4Addr, Ipv6Addr};
use std::panic::{catch_unwind, AssertUnwindSafe};
use std::sync::atomic::{AtomicBool, Ordering};

use hk::rr::rdata::caa::{read_iodef, read_issuer, KeyValue};
use hk::rr::rdata::opt::{ClientSubnet, EdnsCode, EdnsOption, NSIDPayload};
use hk::rr::rdata::svcb::{Alpn, EchConfigList, IpHint, Mandatory, SvcParamKey, SvcParamValue, Unknown};
use hk::rr::rdata::{A, AAAA, CAA, CERT, CSYNC, HINFO, NAPTR, NULL, OPENPGPKEY, OPT, SOA, SSHFP, SVCB, TLSA, TXT};
use hk::rr::{Name, RData, RecordDataDecodable, RecordType};
#[allow(unused_imports)]
use hk::serialize::binary::{BinDecodable, BinDecoder, BinEncodable, BinEncoder, Restrict};

/// An allocator that fails when it is told to.
struct Failing;
static FAILS: AtomicBool = AtomicBool::new(false);
// SAFETY: passes every request on to the system's allocator unchanged, or returns null.
unsafe impl GlobalAlloc for Failing {
    unsafe fn alloc(&self, layout: Layout) -> *mut u8 {
        if FAILS.load(Ordering::Relaxed) {
            return std::ptr::null_mut();
        }
        System.alloc(layout)
    }
    unsafe fn dealloc(&self, pointer: *mut u8, layout: Layout) {
        System.dealloc(pointer, layout)
    }
}
#[global_allocator]
static ALLOCATOR: Failing = Failing;

fn octets(digits: &str) -> Vec<u8> {
    let digits: String = digits.chars().filter(|c| c.is_ascii_hexdigit()).collect();
    (0..digits.len() / 2).map(|i| u8::from_str_radix(&digits[2 * i..2 * i + 2], 16).unwrap()).collect()
}

fn digits(octets: &[u8]) -> String {
    if octets.is_empty() {
        return "-".to_string();
    }
    octets.iter().map(|octet| format!("{octet:02x}")).collect()
}

fn emitted(value: &impl BinEncodable) -> Result<String, String> {
    let mut all = Vec::new();
    let result = value.emit(&mut BinEncoder::new(&mut all));
    result.map(|()| digits(&all)).map_err(|error| error.to_string())
}

fn read_at(kind: u16, place: u16, length: u16, message: &[u8]) -> Result<RData, String> {
    let mut decoder = BinDecoder::new(message).clone(place);
    RData::read(&mut decoder, RecordType::from(kind), Restrict::new(length)).map_err(|error| error.to_string())
}

/// RDATA at the front of a message: the octets that are emitted again, or the error.
fn read(kind: u16, text: &str) -> String {
    let message = octets(text);
    match read_at(kind, 0, message.len() as u16, &message) {
        Ok(value) => format!("accepted {}", emitted(&value).unwrap_or_else(|error| error)),
        Err(error) => format!("rejected: {error}"),
    }
}

/// The error of a record's own reader, and the offset where it ends.
fn own<'r, T: RecordDataDecodable<'r>>(message: &'r [u8], length: u16) -> String {
    let mut decoder = BinDecoder::new(message);
    let error = T::read_data(&mut decoder, Restrict::new(length)).err();
    format!("{} at {}", error.map_or("no error".to_string(), |error| format!("{error:?}")), decoder.index())
}

/// The display text, or that `Display` fails.
fn shown(value: &RData) -> String {
    let mut text = String::new();
    write!(text, "{value}").map_or("fmt::Error".to_string(), |()| text)
}

fn parsed(kind: RecordType, text: &str) -> String {
    match RData::try_from_str(kind, text) {
        Ok(value) => shown(&value),
        Err(error) => error.to_string(),
    }
}

fn hash(value: &impl Hash) -> u64 {
    let mut hasher = DefaultHasher::new();
    value.hash(&mut hasher);
    hasher.finish()
}

fn type_of<T>(_: &T) -> &'static str {
    std::any::type_name::<T>()
}

fn panics(call: impl FnOnce()) -> &'static str {
    if catch_unwind(AssertUnwindSafe(call)).is_err() { "panic" } else { "no panic" }
}

fn say(name: &str, result: impl Display) {
    println!("{name}\t{result}");
}

fn option(code: u16, data: &[u8]) -> (EdnsCode, EdnsOption) {
    (EdnsCode::from(code), EdnsOption::Unknown(code, data.to_vec()))
}

fn opt() {
    for text in ["000a", "000a000401", "000a000501", "000a000601", "000a00"] {
        say(&format!("opt-{text}"), read(41, text));
    }
    let (a, b) = (option(65001, b"a"), option(65002, b"b"));
    let of = |list: &[&(EdnsCode, EdnsOption)]| OPT::new(list.iter().map(|&each| each.clone()).collect());
    say("opt-aa-equals-ab", of(&[&a, &a]) == of(&[&a, &b]));
    say("opt-ab-equals-aa", of(&[&a, &b]) == of(&[&a, &a]));
    say("opt-ab-equals-ba", of(&[&a, &b]) == of(&[&b, &a]));
    say("opt-hash-of-ab-and-ba-is-same", hash(&of(&[&a, &b])) == hash(&of(&[&b, &a])));
    say("opt-hash-of-aa-and-ab-is-same", hash(&of(&[&a, &a])) == hash(&of(&[&a, &b])));
    say("opt-order-of-ab-and-ba", format!("{:?}", of(&[&a, &b]).cmp(&of(&[&b, &a]))));
    say("opt-data-order-of-ab-and-ba", format!("{:?}", RData::OPT(of(&[&a, &b])).cmp(&RData::OPT(of(&[&b, &a])))));
    say("opt-display", OPT::new(vec![option(10, &[1, 2])]));
    say("opt-data-display", shown(&RData::OPT(OPT::new(vec![option(10, &[1, 2])]))));
    say("opt-code-5", format!("{:?}", EdnsOption::try_from((EdnsCode::DAU, &[8u8][..])).unwrap()));
    say("opt-code-order-4-and-13", format!("{:?}", EdnsCode::from(4).cmp(&EdnsCode::Chain)));
    if let EdnsOption::Unknown(_, data) = &option(10, b"a").1 {
        say("opt-unknown-type", type_of(data));
    }
    say("opt-nsid-octets", format!("{:?}", NSIDPayload::try_from(&b"a"[..]).unwrap()));
    say("opt-default", OPT::default().options.len());
}

fn subnets() {
    let four = |prefix| ClientSubnet::new(IpAddr::V4(Ipv4Addr::new(192, 0, 2, 1)), prefix, 0);
    let six = |prefix| ClientSubnet::new(IpAddr::V6(Ipv6Addr::LOCALHOST), prefix, 0);
    for (name, subnet) in [("32", four(32)), ("33", four(33)), ("255", four(255)), ("v6-128", six(128)), ("v6-129", six(129))] {
        let result = catch_unwind(|| emitted(&subnet));
        say(&format!("subnet-emit-prefix-{name}"), match result {
            Ok(Ok(all)) => all,
            Ok(Err(error)) => format!("error: {error}"),
            Err(_) => "panic".to_string(),
        });
    }
    for text in ["00030000", "00012100 0102030405", "0001", "00011800 c000"] {
        let message = octets(text);
        let mut decoder = BinDecoder::new(&message);
        let error = ClientSubnet::read(&mut decoder).err();
        say(&format!("subnet-read-{}", digits(&message)), format!("{error:?} at {}", decoder.index()));
    }
    let parsed: Result<ClientSubnet, _> = "192.0.2.1/33".parse();
    say("subnet-text-error", type_of(&parsed.unwrap_err()));
    let parsed: ClientSubnet = "192.0.2.1/24".parse().unwrap();
    say("subnet-text", parsed.addr());
}

fn errors() {
    say("error-a-of-3", read(1, "010203"));
    say("error-a-of-5", read(1, "0102030405"));
    say("error-cert-of-5", read(37, "0001303908"));
    say("own-cert-of-5", own::<CERT>(&octets("0001303908"), 5));
    say("own-sshfp-of-1-in-2", own::<SSHFP>(&octets("0101"), 1));
    say("own-tlsa-of-2-in-3", own::<TLSA>(&octets("030101"), 2));
    say("own-caa-tag-of-5-in-2", own::<CAA>(&octets("0005"), 2));
    say("own-csync-of-5-in-6", own::<CSYNC>(&octets("0000007b0000"), 5));
    say("own-a-of-3", own::<A>(&octets("010203"), 4));
    say("own-aaaa-of-15", own::<AAAA>(&[0; 15], 16));
    say("text-mx-preference", parsed(RecordType::MX, "x a."));
    say("text-mx-exchange-missing", parsed(RecordType::MX, "10"));
    say("text-mx-empty", parsed(RecordType::MX, ""));
    say("text-srv-port", parsed(RecordType::SRV, "1 2 x a."));
    say("text-cert-type", parsed(RecordType::CERT, "x 1 1 AAAA"));
    say("text-cert-data", parsed(RecordType::CERT, "1 1 1 *"));
    say("text-openpgpkey", parsed(RecordType::OPENPGPKEY, "*"));
    say("text-csync-type", parsed(RecordType::CSYNC, "1 0 NOTYPE"));
    say("text-null", parsed(RecordType::NULL, "AA=="));
    say("text-opt", parsed(RecordType::OPT, "a"));
    say("text-ds", parsed(RecordType::DS, "a"));
}

fn order() {
    let name = |text: &str| Name::from_ascii(text).unwrap();
    let ns = |text| RData::NS(hk::rr::rdata::NS(name(text)));
    let cname = |text| RData::CNAME(hk::rr::rdata::CNAME(name(text)));
    say("order-ns-case-equal", ns("a.") == ns("A."));
    say("order-ns-case", format!("{:?}", ns("a.").cmp(&ns("A."))));
    say("order-ns-cname-equal", ns("a.") == cname("a."));
    say("order-ns-cname", format!("{:?}", ns("a.").cmp(&cname("a."))));
}

fn records() {
    let mut soa = SOA::new(Name::root(), Name::root(), u32::MAX, 0, 0, 0, 0);
    say("soa-increment-at-greatest", panics(|| soa.increment_serial()));
    say("null-with-empty", panics(|| drop(NULL::with(Vec::new()))));
    let long = vec![7u8; 65536 + 10];
    say("cert-try-from-65546", CERT::try_from(&long[..]).unwrap().cert_data.len());
    say("caa-iodef-no-url", if read_iodef(b"not a url").is_ok() { "accepted" } else { "rejected" });
    say("caa-iodef-no-utf8", if read_iodef(&[0xff]).is_ok() { "accepted" } else { "rejected" });
    say("caa-iodef-url-type", type_of(&read_iodef(b"http://a.example/").unwrap()));
    say("caa-key-value", KeyValue::new("a".to_string(), "b").key());
    say("caa-issuer", format!("{:?}", read_issuer(b"ca.example; a=b").unwrap().1.len()));
    let new: fn(bool, Option<Name>, Vec<KeyValue>) -> CAA = CAA::new_issue;
    say("caa-new-issue", new(false, None, Vec::new()));
    let csync = CSYNC::new(1, false, false, [RecordType::A]);
    say("csync-new-of-an-array", csync);
    if let Ok(RData::CAA(caa)) = read_at(257, 0, 9, b"\x00\x05issueab") {
        say("caa-tag-type", type_of(&caa.tag));
        say("caa-value-type", type_of(&caa.value));
    }
    say("null-type", type_of(&NULL::new().anything));
    say("cert-type", type_of(&CERT::new(1.into(), 1, 1.into(), vec![1]).cert_data));
    say("sshfp-type", type_of(&SSHFP::new(1.into(), 1.into(), vec![1]).fingerprint));
    say("tlsa-type", type_of(&TLSA::new(1.into(), 1.into(), 1.into(), vec![1]).cert_data));
    say("openpgpkey-type", type_of(&OPENPGPKEY::new(vec![1]).public_key));
    say("txt-type", type_of(&TXT::new(vec!["a".to_string()]).txt_data));
    say("hinfo-type", type_of(&HINFO::new("a".to_string(), "b".to_string()).cpu));
    let naptr = NAPTR::new(1, 1, b"s"[..].into(), b""[..].into(), b""[..].into(), Name::root());
    say("naptr-type", type_of(&naptr.flags));
    say("number-from", u16::from(EdnsCode::Cookie) + u16::from(RecordType::MX));
    say("hex-type", type_of(&*hk::rr::rdata::sshfp::HEX));
    say("hex-error-type", type_of(&hk::rr::rdata::sshfp::HEX.decode(b"x").unwrap_err()));
    say("zero-text", format!("[{}]", parsed(RecordType::ZERO, "")));
}

fn services() {
    let svcb = SVCB::new(1, Name::root(), vec![(SvcParamKey::Port, SvcParamValue::Port(1))]);
    say("svcb-parameters-type", type_of(&svcb.svc_params));
    say("svcb-mandatory-type", type_of(&Mandatory(vec![SvcParamKey::Port]).0));
    say("svcb-alpn-type", type_of(&Alpn(vec!["h2".to_string()]).0));
    say("svcb-ech-type", type_of(&EchConfigList(vec![1]).0));
    say("svcb-unknown-type", type_of(&Unknown(vec![1]).0));
    let message = [192, 0, 2, 1];
    let hint = IpHint::<A>::read(&mut BinDecoder::new(&message)).unwrap();
    say("svcb-hint-type", type_of(&hint.0));
    if let Ok(RData::SVCB(svcb)) = read_at(64, 0, 9, &octets("000100 00070002 2fff")) {
        say("svcb-key-7", format!("{:?}", svcb.svc_params));
    }
    say("svcb-text-key-7", parsed(RecordType::SVCB, "1 . dohpath=/q"));
    say("svcb-text", parsed(RecordType::SVCB, "1 . port=443"));
}

fn rows() {
    std::panic::set_hook(Box::new(|_| {}));
    opt();
    subnets();
    errors();
    order();
    records();
    services();
    let ran = std::process::Command::new(std::env::current_exe().unwrap()).arg("without-memory").output().unwrap();
    say("clone-without-memory", ran.status);
}

fn lines() {
    std::panic::set_hook(Box::new(|_| {}));
    for line in std::io::stdin().lock().lines() {
        let line = line.unwrap();
        let words: Vec<&str> = line.split_whitespace().collect();
        let number = |i: usize| words[i].parse::<u16>().unwrap();
        let message = octets(words[3]);
        let result = catch_unwind(|| read_at(number(0), number(1), number(2), &message).map(|value| emitted(&value)));
        match result {
            Ok(Ok(Ok(all))) => say("accepted", all),
            Ok(Ok(Err(error))) => say("accepted", format!("!{error}")),
            Ok(Err(error)) => say("rejected", error),
            Err(_) => say("rejected", "panic"),
        }
    }
}

fn main() {
    match std::env::args().nth(1).as_deref() {
        None => lines(),
        Some("without-memory") => {
            let value = TXT::new(vec!["a".to_string()]);
            FAILS.store(true, Ordering::Relaxed);
            drop(value.clone());
        }
        _ => rows(),
    }
}

// What the traits say, for the compiler.
#[allow(dead_code)]
fn is_ordered<T: Ord + Hash + Debug>() {}
#[allow(dead_code)]
fn traits() {
    is_ordered::<OPT>();
    is_ordered::<EdnsOption>();
}
