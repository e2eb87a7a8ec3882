//! Jobs that the proved code is timed beside, or by which it is timed.
//!
//! - `sum` adds up the octets of standard input, read through a buffer as
//!   large as the list program's;
//! - `list` is the twin's evening list of standard input, on standard output;
//! - `read-proved COUNT` and `read-twin COUNT` read so many frames with the
//!   proved library and with the twin, and write how many were accepted;
//! - `advance-record COUNT` and `advance-twin COUNT` advance a station so many
//!   times by 1, in its octets with the proved library and with the twin, and
//!   write how often it was accepted; `ask-record COUNT` and `ask-twin COUNT` ask
//!   it so many times for 1, and write how often it was granted;
//! - `pcap COUNT` writes the same frames as a file that Wireshark reads.

mod frames;
mod stations;

use std::io::{self, Read, Write};

/// As the list program reads.
const BUFFER: usize = 65_536;

fn sum() -> io::Result<()> {
    let mut input = io::stdin().lock();
    let mut buffer = vec![0; BUFFER];
    let mut total: u64 = 0;
    loop {
        let count = input.read(&mut buffer)?;
        if count == 0 {
            break;
        }
        total += buffer[..count].iter().map(|&octet| u64::from(octet)).sum::<u64>();
    }
    writeln!(io::stdout(), "{}", total)
}

fn list() -> io::Result<()> {
    let mut file = Vec::new();
    io::stdin().lock().read_to_end(&mut file)?;
    io::stdout().lock().write_all(&twin::list(&file))
}

/// How many of `count` frames, the samples over and over, are accepted.
fn read(count: usize, accepts: impl Fn(&[u8]) -> bool) -> io::Result<()> {
    let samples = frames::samples();
    let accepted = (0..count).filter(|i| accepts(&samples[i % samples.len()])).count();
    writeln!(io::stdout(), "{}", accepted)
}

/// How many of `count` calls succeed.
fn repeat(count: usize, mut call: impl FnMut() -> bool) -> io::Result<()> {
    let succeeded = (0..count).filter(|_| call()).count();
    writeln!(io::stdout(), "{}", succeeded)
}

/// A file of link type 105, which is 802.11 frames as they are.
fn pcap(count: usize) -> io::Result<()> {
    let samples = frames::samples();
    let mut out = io::BufWriter::new(io::stdout().lock());
    let head = [0xA1B2_C3D4_u32, 0x0004_0002, 0, 0, 65_535, 105];
    for word in head {
        out.write_all(&word.to_le_bytes())?;
    }
    for i in 0..count {
        let frame = &samples[i % samples.len()];
        let length = (frame.len() as u32).to_le_bytes();
        out.write_all(&[0; 8])?;
        out.write_all(&length)?;
        out.write_all(&length)?;
        out.write_all(frame)?;
    }
    out.flush()
}

fn main() -> io::Result<()> {
    let words: Vec<String> = std::env::args().skip(1).collect();
    let count = words.get(1).and_then(|word| word.parse().ok()).unwrap_or(0);
    match words.first().map(String::as_str) {
        Some("sum") => sum(),
        Some("list") => list(),
        Some("read-proved") => read(count, frames::proved_accepts),
        Some("read-twin") => read(count, frames::twin_accepts),
        Some("advance-record") => repeat(count, stations::record_advances()),
        Some("advance-twin") => repeat(count, stations::twin_advances()),
        Some("ask-record") => repeat(count, stations::record_is_granted()),
        Some("ask-twin") => repeat(count, stations::twin_is_granted()),
        Some("pcap") => pcap(count),
        _ => {
            eprintln!(
                "bench: 'sum', 'list', 'read-proved COUNT', 'read-twin COUNT', 'advance-record COUNT', \
                 'advance-twin COUNT', 'ask-record COUNT', 'ask-twin COUNT' or 'pcap COUNT'"
            );
            std::process::exit(2);
        }
    }
}
