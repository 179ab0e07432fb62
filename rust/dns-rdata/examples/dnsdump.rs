//! Prints the records of DNS messages, a line each, as in a zone file: what `c/examples/dnsdump.c` prints.
//!
//! `dnsdump FILE` reads the messages of a capture file (pcap): UDP from or to port 53. `dnsdump FOLDER` reads the files
//! of a folder, one message a file. Standard error has the counts. Status 0; 1 if RDATA was rejected or a message is
//! damaged; 2 if a file cannot be used.

use std::collections::BTreeMap;
use std::process::ExitCode;
use std::{env, error, fs, path::Path};

use dns_rdata::{Error, Record, RecordType, Records, Status};

#[derive(Default)]
struct Counts {
    messages: usize,
    damaged: usize,
    others: usize,
    records: usize,
    rejected: usize,
    statuses: BTreeMap<u32, usize>,
    types: BTreeMap<RecordType, usize>,
}

/// Prints a message, and counts its records.
fn print_message(message: &[u8], counts: &mut Counts) {
    counts.messages += 1;
    println!("; message {}, {} octets", counts.messages, message.len());
    if let Err(error) = print_records(message, counts) {
        let status = error.status().number();
        println!("; damaged: status {status}");
        counts.damaged += 1;
        *counts.statuses.entry(status).or_default() += 1;
    }
}

/// Prints the records of a message, up to one that is damaged.
fn print_records(message: &[u8], counts: &mut Counts) -> Result<(), Error> {
    for item in Records::new(message)? {
        match item {
            Ok(record) => match record.rdata().map(|rdata| rdata.to_text()).transpose() {
                Ok(Some(text)) => println!("{} {text}", head(&record)),
                Ok(None) => println!("; no data: {}", head(&record)),
                Err(error) => print_rejected(&record, error, counts),
            },
            Err(error) => match error.record() {
                Some(record) => print_rejected(&record, error.error(), counts),
                None => return Err(error.into()),
            },
        }
        counts.records += 1;
    }
    Ok(())
}

/// What precedes the RDATA: owner, TTL, class and type.
fn head(record: &Record<'_>) -> String {
    let class = match record.class() {
        1 => "IN".to_string(),
        class => format!("CLASS{class}"),
    };
    let (owner, record_type) = (record.owner(), record.record_type());
    format!("{owner} {} {class} {record_type}", record.ttl())
}

fn print_rejected(record: &Record<'_>, error: Error, counts: &mut Counts) {
    let status = error.status().number();
    print!("; rejected: {}: status {status}", head(record));
    if let Some(offset) = error.offset() {
        let cause = error.cause().map_or(0, Status::number);
        print!(", cause {cause}, offset {offset}");
    }
    println!();
    counts.rejected += 1;
    *counts.statuses.entry(status).or_default() += 1;
    *counts.types.entry(record.record_type()).or_default() += 1;
}

/// The number of two octets.
fn two(octets: &[u8], offset: usize) -> Option<usize> {
    let octets = octets.get(offset..)?.first_chunk()?;
    Some(usize::from(u16::from_be_bytes(*octets)))
}

/// The message in a packet, if it is one of UDP from or to port 53.
fn message_of(link: u32, frame: &[u8]) -> Option<&[u8]> {
    let kind = match link {
        1 if two(frame, 12)? == 0x8100 => 16,
        1 => 12,
        _ => 14,
    };
    let ip = match link {
        101 => frame,
        _ if matches!(two(frame, kind)?, 0x0800 | 0x86dd) => frame.get(kind + 2..)?,
        _ => return None,
    };
    let (version, header) = (ip.first()? >> 4, usize::from(ip.first()? & 15) * 4);
    let udp = match version {
        4 if *ip.get(9)? == 17 && two(ip, 6)? & 0x1fff == 0 && header >= 20 => ip.get(header..)?,
        6 if *ip.get(6)? == 17 => ip.get(40..)?,
        _ => return None,
    };
    let (length, message) = (two(udp, 4)?.checked_sub(8)?, udp.get(8..)?);
    let is_dns = two(udp, 0)? == 53 || two(udp, 2)? == 53;
    is_dns.then(|| &message[..message.len().min(length)])
}

/// Prints the messages of a capture file.
fn print_capture(octets: &[u8], counts: &mut Counts) -> Result<(), &'static str> {
    let number: fn([u8; 4]) -> u32 = match octets.get(..4) {
        Some([0xa1, 0xb2, 0xc3, 0xd4] | [0xa1, 0xb2, 0x3c, 0x4d]) => u32::from_be_bytes,
        Some([0xd4, 0xc3, 0xb2, 0xa1] | [0x4d, 0x3c, 0xb2, 0xa1]) => u32::from_le_bytes,
        _ => return Err("is not a capture file (pcap)"),
    };
    let (header, mut rest) = octets.split_at_checked(24).ok_or("has no whole header")?;
    let link = number([header[20], header[21], header[22], header[23]]) & 0xffff;
    if ![1, 101, 113].contains(&link) {
        return Err("has a link layer other than Ethernet, raw IP and Linux cooked capture");
    }
    while !rest.is_empty() {
        let ends = "ends inside a packet";
        let (header, after) = rest.split_at_checked(16).ok_or(ends)?;
        let length = number([header[8], header[9], header[10], header[11]]) as usize;
        let (frame, after) = after.split_at_checked(length).ok_or(ends)?;
        match message_of(link, frame) {
            Some(message) => print_message(message, counts),
            None => counts.others += 1,
        }
        rest = after;
    }
    Ok(())
}

/// Prints the messages in the files of a folder.
fn print_folder(folder: &Path, counts: &mut Counts) -> Result<(), Box<dyn error::Error>> {
    let entries: Result<Vec<_>, _> = fs::read_dir(folder)?.collect();
    let mut paths: Vec<_> = entries?.into_iter().map(|entry| entry.path()).collect();
    paths.sort();
    for path in paths.iter().filter(|path| path.is_file()) {
        print_message(&fs::read(path)?, counts);
    }
    Ok(())
}

fn print(path: &Path, counts: &mut Counts) -> Result<(), Box<dyn error::Error>> {
    if path.is_dir() {
        return print_folder(path, counts);
    }
    Ok(print_capture(&fs::read(path)?, counts)?)
}

fn print_counts(counts: &Counts) {
    let (messages, damaged, others) = (counts.messages, counts.damaged, counts.others);
    eprintln!("{messages} messages, {damaged} of them damaged; {others} packets without a message");
    eprintln!(
        "{} records, {} of them rejected",
        counts.records, counts.rejected
    );
    for (status, count) in &counts.statuses {
        eprintln!("status {status}: {count}");
    }
    for (record_type, count) in &counts.types {
        eprintln!("rejected {record_type}: {count}");
    }
}

fn main() -> ExitCode {
    let Some(name) = env::args_os().nth(1) else {
        eprintln!("usage: dnsdump FILE|FOLDER");
        return ExitCode::from(2);
    };
    let mut counts = Counts::default();
    let result = print(Path::new(&name), &mut counts);
    if let Err(error) = &result {
        eprintln!("dnsdump: {}: {error}", Path::new(&name).display());
    }
    print_counts(&counts);
    ExitCode::from(match result {
        Err(_) => 2,
        Ok(()) => u8::from(!counts.statuses.is_empty()),
    })
}
