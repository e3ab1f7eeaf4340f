//! Splits recordings of telemetry packets of 64 kinds after CCSDS 133.0-B, with a reader that was written by hand for them and
//! nothing but std: the length and the check of each are compared, and its application tells what it is.
//!
//!   kinds FILE
//!
//! prints what `eds split` prints: a line of JSON for each packet, and the line that counts packets and octets.
//! `split.py`, which makes the recordings and the sheet, says how a packet is spelled.

use std::env;
use std::fs;
use std::io::{self, Write};
use std::process::ExitCode;

const HEADER_OCTETS: usize = 6;
const CHECK_OCTETS: usize = 2;

struct Table([u16; 256]);

impl Table {
    fn new() -> Self {
        let mut table = [0; 256];
        for (octet, entry) in (0u16..).zip(&mut table) {
            *entry = (0..8).fold(octet << 8, |bits, _| {
                bits << 1 ^ if bits & 0x8000 == 0 { 0 } else { 0x1021 }
            });
        }
        Table(table)
    }

    fn check(&self, octets: &[u8]) -> u16 {
        octets.iter().fold(0xFFFF, |check: u16, octet| {
            self.0[usize::from((check >> 8) as u8 ^ octet)] ^ check << 8
        })
    }
}

struct Header {
    version: u8,
    is_command: bool,
    has_second: bool,
    apid: u16,
    flags: &'static str,
    count: u16,
}

enum Body<'a> {
    Power { volt: u16, amp: i16 },
    Thermal { temps: Vec<i16> },
    Mode { mode: &'static str, rate: u32 },
    Name { name: &'a str, level: u8 },
}

fn word(octets: &[u8], at: usize) -> Option<u16> {
    Some(u16::from_be_bytes(octets.get(at..at + 2)?.try_into().ok()?))
}

fn header(octets: &[u8]) -> Option<Header> {
    let first = word(octets, 0)?;
    let second = word(octets, 2)?;
    Some(Header {
        version: (first >> 13) as u8,
        is_command: first & 0x1000 != 0,
        has_second: first & 0x0800 != 0,
        apid: first & 0x07FF,
        flags: ["CONT", "FIRST", "LAST", "UNSEG"][usize::from(second >> 14)],
        count: second & 0x3FFF,
    })
}

fn body(apid: u16, octets: &[u8]) -> Option<(Body<'_>, usize)> {
    if apid >= 64 {
        return None;
    }
    match apid % 4 {
        0 => Some((Body::Power { volt: word(octets, 0)?, amp: word(octets, 2)? as i16 }, 4)),
        1 => {
            let count = usize::from(*octets.first()?);
            let temps = (0..count).map(|i| Some(word(octets, 1 + 2 * i)? as i16)).collect::<Option<_>>()?;
            Some((Body::Thermal { temps }, 1 + 2 * count))
        }
        2 => {
            let mode = match octets.first()? {
                0 => "OFF",
                1 => "IDLE",
                4 => "NOMINAL",
                5 => "SAFE",
                _ => return None,
            };
            let rate = u32::from_be_bytes(octets.get(1..5)?.try_into().ok()?);
            Some((Body::Mode { mode, rate }, 5))
        }
        _ => {
            let name = std::str::from_utf8(octets.get(..8)?).ok().filter(|name| name.is_ascii())?;
            Some((Body::Name { name, level: *octets.get(8)? }, 9))
        }
    }
}

/// The packet at the front of octets, and how many octets it has.
fn packet<'a>(table: &Table, octets: &'a [u8]) -> Option<(Header, Body<'a>, usize)> {
    let header = header(octets)?;
    let (body, size) = body(header.apid, octets.get(HEADER_OCTETS..)?)?;
    let end = HEADER_OCTETS + size;
    if word(octets, end)? != table.check(octets.get(..end)?) {
        return None;
    }
    let whole = end + CHECK_OCTETS;
    if usize::from(word(octets, 4)?) + HEADER_OCTETS + 1 != whole {
        return None;
    }
    Some((header, body, whole))
}

fn push_line(report: &mut Vec<u8>, header: &Header, body: &Body) -> io::Result<()> {
    let Header { version, is_command, has_second, apid, flags, count } = header;
    write!(report, "{{\"$type\":\"Kinds/K{apid}\",")?;
    match body {
        Body::Power { amp, .. } => write!(report, "\"Amp\":{amp},\"Apid\":{apid},")?,
        Body::Thermal { temps } => write!(report, "\"Apid\":{apid},\"Count\":{},", temps.len())?,
        Body::Mode { mode, rate } => write!(report, "\"Apid\":{apid},\"Mode\":\"{mode}\",\"Rate\":{rate},")?,
        Body::Name { name, level } => write!(report, "\"Apid\":{apid},\"Level\":{level},\"Name\":\"{name}\",")?,
    }
    write!(report, "\"SecHdr\":{has_second},\"SeqCount\":{count},\"SeqFlags\":\"{flags}\"")?;
    if let Body::Thermal { temps } = body {
        report.extend_from_slice(b",\"Temps\":[");
        for (i, temp) in temps.iter().enumerate() {
            if i > 0 {
                report.push(b',');
            }
            write!(report, "{temp}")?;
        }
        report.push(b']');
    }
    write!(report, ",\"Type\":{is_command},\"Version\":{version}")?;
    if let Body::Power { volt, .. } = body {
        write!(report, ",\"Volt\":{volt}")?;
    }
    report.extend_from_slice(b"}\n");
    Ok(())
}

fn report_on(recording: &[u8]) -> Option<Vec<u8>> {
    let table = Table::new();
    let mut report = Vec::new();
    let mut left = recording;
    let mut packets = 0;
    while !left.is_empty() {
        let (header, body, size) = packet(&table, left)?;
        push_line(&mut report, &header, &body).ok()?;
        left = &left[size..];
        packets += 1;
    }
    writeln!(report, "packets {packets} octets {}", recording.len()).ok()?;
    Some(report)
}

fn main() -> ExitCode {
    let Some(file) = env::args().nth(1) else {
        println!("usage: kinds FILE");
        return ExitCode::from(2);
    };
    let report = fs::read(file).ok().and_then(|recording| report_on(&recording));
    match report.map(|report| io::stdout().write_all(&report)) {
        Some(Ok(())) => ExitCode::SUCCESS,
        _ => ExitCode::FAILURE,
    }
}
