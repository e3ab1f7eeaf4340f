//! Reads packets of twenty entries with a reader that was written by hand for them, and nothing but std.
//!
//!   packets COUNT
//!   packets json COUNT
//!   packets make COUNT FILE
//!   packets split FILE
//!   packets split-digits FILE
//!
//! COUNT is 1 to 10,000,000. The last line that is printed is `packets COUNT sum SUM`; with `json`, each packet is written as
//! JSON too, and the last line is `octets OCTETS last TEXT`, of all texts and of the last one. `make` writes the packets to a
//! file, and `split` prints the packets of a file as `eds split` does: a line of JSON for each, in one report that is written
//! when it is whole; with `write!`, or with digits that are put one by one.
//!
//! A packet has 32 octets. Bits are numbered from the most significant of the first octet on; numbers are big-endian
//! where nothing else is said.
//!
//!   bits       entry         how it is spelled
//!   0 to 2     version       unsigned
//!   3          is_command    0 is false
//!   4          has_second    0 is false
//!   5 to 15    apid          unsigned
//!   16 to 17   grouping      CONTINUATION 0, FIRST 1, LAST 2, UNSEGMENTED 3
//!   18 to 31   count         unsigned
//!   32 to 63   seconds       unsigned
//!   64 to 79   fraction      unsigned, little-endian
//!   80 to 83   mode          OFF 0, IDLE 1, NOMINAL 4, SAFE 5
//!   84         heater        0 is false
//!   85 to 95   load          two's complement
//!   96 to 111  temperature   two's complement, little-endian
//!   112 to 123 bias          sign and magnitude
//!   124 to 127 valve         0 is true, any other pattern is false
//!   128 to 135 drift         ones' complement
//!   136 to 159 pressure      unsigned
//!   160 to 191 position      two's complement, little-endian
//!   192 to 207 orbit         four decimal digits of four bits each
//!   208 to 223 duty          unsigned, 0 to 1000
//!   224 to 255 errors        unsigned
//!
//! The packets come from numbers of 64 bits: the first is made from 1, and each other one from the one before, by
//! n * 6364136223846793005 + 1442695040888963407, modulo 2^64. A packet is the upper 32 bits of the next eight of them,
//! big-endian, with all bits 0 that `VARYING` does not have, so that each packet is readable.
//!
//! The sum begins with 0. Each entry in turn makes it 31 times the sum before, plus the entry, modulo 2^64: a number
//! itself, a truth value as 0 or 1, and a label as the octet of its first letter.

use std::env;
use std::fmt;
use std::fs;
use std::io::{self, Write};
use std::process::ExitCode;

const MOST_PACKETS: u32 = 10_000_000;
const PACKET_OCTETS: usize = 32;

const VARYING: [u32; 8] = [
    u32::MAX,
    u32::MAX,
    0xFFFF_5FFF,
    u32::MAX,
    u32::MAX,
    u32::MAX,
    0x7777_01FF,
    u32::MAX,
];

struct Sequence {
    state: u64,
}

impl Sequence {
    fn new() -> Self {
        Sequence { state: 1 }
    }

    fn next_word(&mut self) -> u32 {
        self.state = self
            .state
            .wrapping_mul(6364136223846793005)
            .wrapping_add(1442695040888963407);
        (self.state >> 32) as u32
    }

    fn next_packet(&mut self) -> [u8; PACKET_OCTETS] {
        let mut octets = [0; PACKET_OCTETS];
        for (place, varying) in octets.chunks_exact_mut(4).zip(VARYING) {
            place.copy_from_slice(&(self.next_word() & varying).to_be_bytes());
        }
        octets
    }
}

enum Unreadable {
    Mode(u8),
    Digit(u16),
    Duty(u16),
}

impl fmt::Display for Unreadable {
    fn fmt(&self, f: &mut fmt::Formatter) -> fmt::Result {
        match self {
            Unreadable::Mode(bits) => write!(f, "no mode is {bits}"),
            Unreadable::Digit(bits) => write!(f, "no decimal digit is {bits}"),
            Unreadable::Duty(number) => write!(f, "{number} is above the greatest duty"),
        }
    }
}

#[derive(Clone, Copy)]
enum Grouping {
    Continuation,
    First,
    Last,
    Unsegmented,
}

impl Grouping {
    fn from_bits(bits: u8) -> Self {
        match bits & 3 {
            0 => Grouping::Continuation,
            1 => Grouping::First,
            2 => Grouping::Last,
            _ => Grouping::Unsegmented,
        }
    }

    fn label(self) -> &'static str {
        match self {
            Grouping::Continuation => "CONTINUATION",
            Grouping::First => "FIRST",
            Grouping::Last => "LAST",
            Grouping::Unsegmented => "UNSEGMENTED",
        }
    }

    fn letter(self) -> u8 {
        self.label().as_bytes()[0]
    }
}

#[derive(Clone, Copy)]
enum Mode {
    Off,
    Idle,
    Nominal,
    Safe,
}

impl Mode {
    fn from_bits(bits: u8) -> Result<Self, Unreadable> {
        match bits {
            0 => Ok(Mode::Off),
            1 => Ok(Mode::Idle),
            4 => Ok(Mode::Nominal),
            5 => Ok(Mode::Safe),
            _ => Err(Unreadable::Mode(bits)),
        }
    }

    fn label(self) -> &'static str {
        match self {
            Mode::Off => "OFF",
            Mode::Idle => "IDLE",
            Mode::Nominal => "NOMINAL",
            Mode::Safe => "SAFE",
        }
    }

    fn letter(self) -> u8 {
        self.label().as_bytes()[0]
    }
}

struct Housekeeping {
    version: u8,
    is_command: bool,
    has_second: bool,
    apid: u16,
    grouping: Grouping,
    count: u16,
    seconds: u32,
    fraction: u16,
    mode: Mode,
    heater: bool,
    load: i16,
    temperature: i16,
    bias: i16,
    valve: bool,
    drift: i8,
    pressure: u32,
    position: i32,
    orbit: u16,
    duty: u16,
    errors: u32,
}

/// The number of 11 bits in two's complement.
fn signed_11(bits: u16) -> i16 {
    ((bits << 5) as i16) >> 5
}

/// The number of 12 bits, of which the first is the sign.
fn sign_and_magnitude_12(bits: u16) -> i16 {
    let size = (bits & 0x7FF) as i16;
    if bits & 0x800 == 0 { size } else { -size }
}

/// The number of 8 bits in ones' complement.
fn ones_complement_8(bits: u8) -> i8 {
    if bits & 0x80 == 0 {
        bits as i8
    } else {
        -(!bits as i8)
    }
}

/// The number of four decimal digits.
fn decimal_4(bits: u16) -> Result<u16, Unreadable> {
    let mut number = 0;
    for place in [12, 8, 4, 0] {
        let digit = bits >> place & 0xF;
        if digit > 9 {
            return Err(Unreadable::Digit(digit));
        }
        number = 10 * number + digit;
    }
    Ok(number)
}

fn duty_of(number: u16) -> Result<u16, Unreadable> {
    if number <= 1000 {
        Ok(number)
    } else {
        Err(Unreadable::Duty(number))
    }
}

impl Housekeeping {
    fn read(o: &[u8; PACKET_OCTETS]) -> Result<Self, Unreadable> {
        let bias_and_valve = u16::from_be_bytes([o[14], o[15]]);
        Ok(Housekeeping {
            version: o[0] >> 5,
            is_command: o[0] & 0x10 != 0,
            has_second: o[0] & 0x08 != 0,
            apid: u16::from_be_bytes([o[0], o[1]]) & 0x7FF,
            grouping: Grouping::from_bits(o[2] >> 6),
            count: u16::from_be_bytes([o[2], o[3]]) & 0x3FFF,
            seconds: u32::from_be_bytes([o[4], o[5], o[6], o[7]]),
            fraction: u16::from_le_bytes([o[8], o[9]]),
            mode: Mode::from_bits(o[10] >> 4)?,
            heater: o[10] & 0x08 != 0,
            load: signed_11(u16::from_be_bytes([o[10], o[11]]) & 0x7FF),
            temperature: i16::from_le_bytes([o[12], o[13]]),
            bias: sign_and_magnitude_12(bias_and_valve >> 4),
            valve: bias_and_valve & 0xF == 0,
            drift: ones_complement_8(o[16]),
            pressure: u32::from_be_bytes([0, o[17], o[18], o[19]]),
            position: i32::from_le_bytes([o[20], o[21], o[22], o[23]]),
            orbit: decimal_4(u16::from_be_bytes([o[24], o[25]]))?,
            duty: duty_of(u16::from_be_bytes([o[26], o[27]]))?,
            errors: u32::from_be_bytes([o[28], o[29], o[30], o[31]]),
        })
    }

    /// What each entry adds to the sum, in turn.
    fn weights(&self) -> [u64; 20] {
        [
            self.version.into(),
            self.is_command.into(),
            self.has_second.into(),
            self.apid.into(),
            self.grouping.letter().into(),
            self.count.into(),
            self.seconds.into(),
            self.fraction.into(),
            self.mode.letter().into(),
            self.heater.into(),
            self.load as u64,
            self.temperature as u64,
            self.bias as u64,
            self.valve.into(),
            self.drift as u64,
            self.pressure.into(),
            self.position as u64,
            self.orbit.into(),
            self.duty.into(),
            self.errors.into(),
        ]
    }

    /// The packet as JSON, without spaces and with its members in byte order.
    fn text(&self) -> Result<String, fmt::Error> {
        let mut text = String::with_capacity(128);
        self.write_to(&mut text)?;
        Ok(text)
    }

    fn write_to(&self, text: &mut impl fmt::Write) -> fmt::Result {
        write!(
            text,
            "{{\"$type\":\"Bench/Housekeeping\",\"apid\":{},\"bias\":{},\"count\":{},\"drift\":{}\
             ,\"duty\":{},\"errors\":{},\"fraction\":{},\"grouping\":\"{}\",\"has_second\":{}\
             ,\"heater\":{},\"is_command\":{},\"load\":{},\"mode\":\"{}\",\"orbit\":{}\
             ,\"position\":{},\"pressure\":{},\"seconds\":{},\"temperature\":{},\"valve\":{}\
             ,\"version\":{}}}",
            self.apid,
            self.bias,
            self.count,
            self.drift,
            self.duty,
            self.errors,
            self.fraction,
            self.grouping.label(),
            self.has_second,
            self.heater,
            self.is_command,
            self.load,
            self.mode.label(),
            self.orbit,
            self.position,
            self.pressure,
            self.seconds,
            self.temperature,
            self.valve,
            self.version,
        )
    }
}

/// Puts the digits of a number last.
fn push_number(text: &mut Vec<u8>, number: i64) {
    let mut digits = [0; 20];
    let mut at = digits.len();
    let mut left = number.unsigned_abs();
    loop {
        at -= 1;
        digits[at] = b'0' + (left % 10) as u8;
        left /= 10;
        if left == 0 {
            break;
        }
    }
    if number < 0 {
        text.push(b'-');
    }
    text.extend_from_slice(&digits[at..]);
}

fn push_truth(text: &mut Vec<u8>, truth: bool) {
    text.extend_from_slice(if truth { b"true" } else { b"false" });
}

impl Housekeeping {
    /// Puts the packet's JSON last, without `write!`.
    fn push_to(&self, text: &mut Vec<u8>) {
        let numbers: [(&[u8], i64); 7] = [
            (b"{\"$type\":\"Bench/Housekeeping\",\"apid\":", self.apid.into()),
            (b",\"bias\":", self.bias.into()),
            (b",\"count\":", self.count.into()),
            (b",\"drift\":", self.drift.into()),
            (b",\"duty\":", self.duty.into()),
            (b",\"errors\":", self.errors.into()),
            (b",\"fraction\":", self.fraction.into()),
        ];
        for (name, number) in numbers {
            text.extend_from_slice(name);
            push_number(text, number);
        }
        text.extend_from_slice(b",\"grouping\":\"");
        text.extend_from_slice(self.grouping.label().as_bytes());
        text.extend_from_slice(b"\",\"has_second\":");
        push_truth(text, self.has_second);
        text.extend_from_slice(b",\"heater\":");
        push_truth(text, self.heater);
        text.extend_from_slice(b",\"is_command\":");
        push_truth(text, self.is_command);
        text.extend_from_slice(b",\"load\":");
        push_number(text, self.load.into());
        text.extend_from_slice(b",\"mode\":\"");
        text.extend_from_slice(self.mode.label().as_bytes());
        text.push(b'"');
        let numbers: [(&[u8], i64); 5] = [
            (b",\"orbit\":", self.orbit.into()),
            (b",\"position\":", self.position.into()),
            (b",\"pressure\":", self.pressure.into()),
            (b",\"seconds\":", self.seconds.into()),
            (b",\"temperature\":", self.temperature.into()),
        ];
        for (name, number) in numbers {
            text.extend_from_slice(name);
            push_number(text, number);
        }
        text.extend_from_slice(b",\"valve\":");
        push_truth(text, self.valve);
        text.extend_from_slice(b",\"version\":");
        push_number(text, self.version.into());
        text.push(b'}');
    }
}

/// The packets of a recording, which has no other octets.
fn packets_in(recording: &[u8]) -> impl Iterator<Item = Result<Housekeeping, Unreadable>> + '_ {
    recording
        .chunks_exact(PACKET_OCTETS)
        .map(|octets| Housekeeping::read(octets.try_into().expect("a packet has its octets")))
}

/// The report on a recording: a line for each packet, and the line that counts them.
fn report_on(recording: &[u8], by_digits: bool) -> Result<Vec<u8>, Unreadable> {
    let mut report = Vec::new();
    for packet in packets_in(recording) {
        let packet = packet?;
        if by_digits {
            packet.push_to(&mut report);
        } else {
            packet
                .write_to(&mut Octets(&mut report))
                .expect("a report takes all that is written");
        }
        report.push(b'\n');
    }
    let packets = recording.len() / PACKET_OCTETS;
    report.extend_from_slice(format!("packets {packets} octets {}\n", recording.len()).as_bytes());
    Ok(report)
}

/// Octets that texts are written to.
struct Octets<'a>(&'a mut Vec<u8>);

impl fmt::Write for Octets<'_> {
    fn write_str(&mut self, text: &str) -> fmt::Result {
        self.0.extend_from_slice(text.as_bytes());
        Ok(())
    }
}

fn make(count: u32, file: &str) -> ExitCode {
    let mut sequence = Sequence::new();
    let recording: Vec<u8> = (0..count).flat_map(|_| sequence.next_packet()).collect();
    match fs::write(file, recording) {
        Ok(()) => ExitCode::SUCCESS,
        Err(_) => ExitCode::FAILURE,
    }
}

fn split(file: &str, by_digits: bool) -> ExitCode {
    let Ok(recording) = fs::read(file) else {
        return ExitCode::FAILURE;
    };
    let Ok(report) = report_on(&recording, by_digits) else {
        return ExitCode::FAILURE;
    };
    match io::stdout().write_all(&report) {
        Ok(()) => ExitCode::SUCCESS,
        Err(_) => ExitCode::FAILURE,
    }
}

fn sum_of(count: u32) -> Result<u64, Unreadable> {
    let mut sequence = Sequence::new();
    let mut sum = 0_u64;
    for _ in 0..count {
        let packet = Housekeeping::read(&sequence.next_packet())?;
        for weight in packet.weights() {
            sum = sum.wrapping_mul(31).wrapping_add(weight);
        }
    }
    Ok(sum)
}

/// How many octets the texts of so many packets have, and the last text.
fn texts_of(count: u32) -> Result<(usize, String), Unreadable> {
    let mut sequence = Sequence::new();
    let mut octets = 0;
    let mut last = String::new();
    for _ in 0..count {
        let packet = Housekeeping::read(&sequence.next_packet())?;
        last = packet.text().expect("a text takes all that is written");
        octets += last.len();
    }
    Ok((octets, last))
}

/// How many packets, and whether they are written as JSON.
fn asked() -> Option<(u32, bool)> {
    let words: Vec<String> = env::args().skip(1).collect();
    let (word, json) = match words.as_slice() {
        [count] => (count, false),
        [word, count] if word == "json" => (count, true),
        _ => return None,
    };
    let count = word.parse().ok()?;
    if (1..=MOST_PACKETS).contains(&count) {
        Some((count, json))
    } else {
        None
    }
}

fn line_for(count: u32, json: bool) -> Result<String, Unreadable> {
    if json {
        let (octets, last) = texts_of(count)?;
        Ok(format!("octets {octets} last {last}"))
    } else {
        let sum = sum_of(count)?;
        Ok(format!("packets {count} sum {sum}"))
    }
}

fn main() -> ExitCode {
    let words: Vec<String> = env::args().skip(1).collect();
    match words.iter().map(String::as_str).collect::<Vec<_>>()[..] {
        ["make", count, file] => return count.parse().map_or(ExitCode::from(2), |n| make(n, file)),
        ["split", file] => return split(file, false),
        ["split-digits", file] => return split(file, true),
        _ => {}
    }
    let Some((count, json)) = asked() else {
        println!("usage: packets [json] COUNT, 1 to {MOST_PACKETS}; make COUNT FILE; split or split-digits FILE");
        return ExitCode::from(2);
    };
    match line_for(count, json) {
        Ok(line) => {
            println!("{line}");
            ExitCode::SUCCESS
        }
        Err(cause) => {
            println!("a packet is unreadable: {cause}");
            ExitCode::FAILURE
        }
    }
}
