//! Reads a text or a binary of 65,536 octets many times with nothing but std, from any bit of the first octet on, or takes a
//! check of it.
//!
//!   texts binary|text|sum|xor|crc8|crc16 BITS TURNS
//!
//! BITS, 0 to 7, is how many bits stand before the octets that are read, each of which is the letter A. The last line that
//! is printed is `turns TURNS sum SUM`: each turn adds 256 times the number of octets read, and the last of them; or the check.
//!
//! At bit 0 a binary is copied as a whole, which is a memcpy; elsewhere octets are shifted one by one, in a loop. Cyclic
//! redundancy checks go octet by octet through a table of 256 remainders.

use std::env;
use std::hint::black_box;

const SIZE: usize = 65_536;

fn octets_after(octets: &[u8], bits: u32) -> Vec<u8> {
    if bits == 0 {
        return octets[..SIZE].to_vec();
    }
    octets.windows(2).map(|pair| pair[0] << bits | pair[1] >> (8 - bits)).collect()
}

fn weight(octets: &[u8]) -> u64 {
    256 * octets.len() as u64 + u64::from(octets[octets.len() - 1])
}

fn binary(octets: &[u8], bits: u32) -> u64 {
    let read = octets_after(octets, bits);
    weight(black_box(&read))
}

// The text ends before the first octet 0; there is none.
fn text(octets: &[u8], bits: u32) -> u64 {
    let mut read = octets_after(octets, bits);
    let end = read.iter().position(|octet| *octet == 0).unwrap_or(SIZE);
    read.truncate(end);
    let text = String::from_utf8(read).expect("letters");
    weight(black_box(&text).as_bytes())
}

/// The check of octets, of which there is one more than it is taken of.
fn checked(octets: &[u8], bits: u32, check: impl Fn(&[u8]) -> u64) -> u64 {
    if bits == 0 {
        check(black_box(&octets[..octets.len() - 1]))
    } else {
        check(black_box(&octets_after(octets, bits)))
    }
}

fn sum(octets: &[u8], bits: u32) -> u64 {
    checked(octets, bits, |octets| octets.iter().fold(0u8, |sum, octet| sum.wrapping_add(*octet)).into())
}

fn exclusive_or(octets: &[u8], bits: u32) -> u64 {
    checked(octets, bits, |octets| octets.iter().fold(0u8, |sum, octet| sum ^ octet).into())
}

/// The remainder of each octet by a divisor of 8 or 16 bits, which stand at the upper end of 16.
const fn remainders(divisor: u16) -> [u16; 256] {
    let mut table = [0; 256];
    let mut octet = 0;
    while octet < 256 {
        let mut bits = (octet as u16) << 8;
        let mut step = 0;
        while step < 8 {
            bits = bits << 1 ^ if bits & 0x8000 == 0 { 0 } else { divisor };
            step += 1;
        }
        table[octet] = bits;
        octet += 1;
    }
    table
}

const fn upper(table: [u16; 256]) -> [u8; 256] {
    let mut octets = [0; 256];
    let mut octet = 0;
    while octet < 256 {
        octets[octet] = (table[octet] >> 8) as u8;
        octet += 1;
    }
    octets
}

static CRC8: [u8; 256] = upper(remainders(0x0700));
static CRC16: [u16; 256] = remainders(0x1021);

fn crc8(octets: &[u8], bits: u32) -> u64 {
    checked(octets, bits, |octets| octets.iter().fold(0u8, |check, octet| CRC8[usize::from(check ^ octet)]).into())
}

fn crc16(octets: &[u8], bits: u32) -> u64 {
    checked(octets, bits, |octets| {
        octets.iter().fold(0xFFFFu16, |check, octet| CRC16[usize::from((check >> 8) as u8 ^ octet)] ^ check << 8).into()
    })
}

fn main() {
    let words: Vec<String> = env::args().collect();
    let bits: u32 = words[2].parse().expect("bits");
    let turns: u32 = words[3].parse().expect("turns");
    let octets = vec![(0x4141u16 >> bits) as u8; SIZE + 1];
    let read = match words[1].as_str() {
        "text" => text,
        "sum" => sum,
        "xor" => exclusive_or,
        "crc8" => crc8,
        "crc16" => crc16,
        _ => binary,
    };
    let mut sum = 0u64;
    for turn in 0..turns {
        // A check isn't taken of as many octets each time, so that a compiler takes it anew.
        let fewer = if matches!(words[1].as_str(), "text" | "binary") { 0 } else { turn as usize % 64 };
        sum = sum.wrapping_add(read(black_box(&octets[fewer..]), bits));
    }
    println!("turns {turns} sum {sum}");
}
