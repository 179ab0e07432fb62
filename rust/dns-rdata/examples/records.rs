//! Prints the records of a message, a line each, as in a zone file: owner, TTL, class, type and RDATA. Of RDATA that is rejected the
//! line tells why. `records FILE` reads a message of your own.

use dns_rdata::{Record, Records};

fn print(record: &Record<'_>) {
    let class = match record.class() {
        1 => "IN".to_string(),
        class => format!("CLASS{class}"),
    };
    let (owner, record_type) = (record.owner(), record.record_type());
    print!("{owner} {} {class} {record_type}", record.ttl());
}

fn main() -> Result<(), Box<dyn std::error::Error>> {
    let message = match std::env::args().nth(1) {
        Some(file) => std::fs::read(file)?,
        None => include_bytes!("response.bin").to_vec(),
    };
    for record in Records::new(&message)? {
        match record {
            Ok(record) => {
                print(&record);
                match record.rdata() {
                    Some(rdata) => println!(" {}", rdata.to_text()?),
                    None => println!(),
                }
            }
            Err(error) => match error.record() {
                Some(record) => {
                    print(&record);
                    println!(" ; rejected: {}", error.error());
                }
                None => println!("; {error}"),
            },
        }
    }
    Ok(())
}
