//! Nanoseconds of one call over the samples of `tests/programs/rdata_bench`, in C's way (`dns-rdata-sys`) and in this crate's, by turns: the
//! least of seven parts each. `cargo bench -- ROUNDS` runs other rounds of a part than 20000.

use std::hint::black_box;
use std::time::Instant;

use dns_rdata::{Rdata, RecordType};
use dns_rdata_sys as sys;

const PARTS: usize = 7;

struct Sample {
    record_type: RecordType,
    octets: Vec<u8>,
}

fn sample(line: &str) -> Sample {
    let words: Vec<&str> = line.split(' ').collect();
    let octet = |at| u8::from_str_radix(&words[3][at..at + 2], 16).expect("hexadecimal digits");
    let octets = (0..words[3].len() / 2).map(|i| octet(2 * i)).collect();
    Sample {
        record_type: words[0].parse().expect("the name of a type"),
        octets,
    }
}

fn raw(sample: &Sample) -> sys::dns_rdata {
    sys::dns_rdata {
        message: sample.octets.as_ptr(),
        message_length: sample.octets.len(),
        offset: 0,
        length: sample.octets.len() as u16,
        type_number: sample.record_type.0,
    }
}

fn raw_check(sample: &Sample) -> bool {
    let mut why = sys::dns_rdata_refusal::default();
    // SAFETY: the RDATA is a vector's, and `why` is written by this call alone.
    let status = unsafe { sys::dns_rdata_check(&raw(sample), &mut why) };
    status == sys::DNS_RDATA_OK
}

fn check(sample: &Sample) -> bool {
    Rdata::from_wire(
        &sample.octets,
        0,
        sample.octets.len() as u16,
        sample.record_type,
    )
    .is_ok()
}

fn raw_text(sample: &Sample) -> bool {
    let (mut out, mut count) = ([0; 1024], 0);
    // SAFETY: the RDATA is a vector's, and the call writes `out` and `count` alone.
    let status =
        unsafe { sys::dns_rdata_text(&raw(sample), out.as_mut_ptr(), out.len(), &mut count) };
    status == sys::DNS_RDATA_OK
}

fn text(sample: &Sample) -> bool {
    Rdata::from_octets(&sample.octets, sample.record_type)
        .is_ok_and(|rdata| rdata.to_text().is_ok())
}

// Nanoseconds of one call.
fn measured(sample: &Sample, rounds: u32, call: fn(&Sample) -> bool) -> f64 {
    let start = Instant::now();
    for _ in 0..rounds {
        assert!(black_box(call(black_box(sample))));
    }
    start.elapsed().as_nanos() as f64 / f64::from(rounds)
}

fn main() {
    let rounds = std::env::args()
        .filter_map(|it| it.parse().ok())
        .next()
        .unwrap_or(20_000);
    let path = concat!(
        env!("CARGO_MANIFEST_DIR"),
        "/../../tests/programs/rdata_bench/data/samples.txt"
    );
    let Ok(samples) = std::fs::read_to_string(path) else {
        println!("no {path}, which is in the repository");
        return;
    };
    let samples: Vec<Sample> = samples
        .lines()
        .filter(|line| !line.is_empty())
        .map(sample)
        .collect();
    let calls: [fn(&Sample) -> bool; 4] = [raw_check, check, raw_text, text];
    println!("type\tcheck in C\tfrom_wire\ttext in C\tfrom_octets, to_text");
    let mut sums = [0.0; 4];
    for sample in &samples {
        let mut least = [f64::INFINITY; 4];
        for _ in 0..PARTS {
            for (least, call) in least.iter_mut().zip(calls) {
                *least = least.min(measured(sample, rounds, call));
            }
        }
        println!(
            "{}\t{}",
            sample.record_type,
            least.map(|it| format!("{it:.1}")).join("\t")
        );
        sums.iter_mut()
            .zip(least)
            .for_each(|(sum, least)| *sum += least);
    }
    println!(
        "mean\t{}",
        sums.map(|sum| format!("{:.1}", sum / samples.len() as f64))
            .join("\t")
    );
}
