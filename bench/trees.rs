//! Reads a frame again and again into a tree of values, with readers that were written by hand and nothing but std.
//!
//!   trees KIND FRAME TURNS
//!
//! KIND is array, list, scalars, kinds or mixed; `trees.py`, which makes the frames, says how they are spelled. The line that is printed
//! is `turns TURNS sum SUM`: each turn adds the bits of the value, and how many parts it and its parts have. KIND numbers reads the
//! scalars into an array of numbers, by a table that is made at run time, and adds the bits alone.

use std::env;
use std::fs;
use std::hint::black_box;
use std::process::ExitCode;

/// The tree is made to be read by others.
#[allow(dead_code)]
enum Value {
    Number(i128),
    Label(String),
    Truth(bool),
    Text(String),
    Items(Vec<Value>),
    Fields(u32, Vec<Value>),
}

impl Value {
    fn parts(&self) -> u64 {
        match self {
            Value::Items(parts) | Value::Fields(_, parts) => parts.len() as u64,
            _ => 0,
        }
    }

    fn weight(&self) -> u64 {
        match self {
            Value::Fields(_, fields) => self.parts() + fields.iter().map(Value::parts).sum::<u64>(),
            _ => self.parts(),
        }
    }
}

fn mode_of(number: u32) -> Option<Value> {
    let label = match number {
        0 => "OFF",
        1 => "IDLE",
        4 => "NOMINAL",
        5 => "SAFE",
        _ => return None,
    };
    Some(Value::Label(label.to_owned()))
}

struct Reader<'a> {
    octets: &'a [u8],
    at: usize,
}

impl<'a> Reader<'a> {
    fn take(&mut self, count: usize) -> Option<&'a [u8]> {
        let taken = self.octets.get(self.at..self.at + count)?;
        self.at += count;
        Some(taken)
    }

    fn number(&mut self, count: usize) -> Option<u64> {
        Some(self.take(count)?.iter().fold(0, |number, octet| number << 8 | u64::from(*octet)))
    }

    fn unsigned(&mut self, count: usize) -> Option<Value> {
        Some(Value::Number(self.number(count)?.into()))
    }

    fn signed_16(&mut self) -> Option<Value> {
        Some(Value::Number((self.number(2)? as u16 as i16).into()))
    }

    fn label(&mut self) -> Option<Value> {
        mode_of(self.number(1)? as u32)
    }

    fn text(&mut self, count: usize) -> Option<Value> {
        let octets = self.take(count)?;
        if !octets.is_ascii() {
            return None;
        }
        Some(Value::Text(String::from_utf8(octets.to_vec()).ok()?))
    }

    fn items(&mut self, count: usize, item: impl Fn(&mut Self) -> Option<Value>) -> Option<Value> {
        let mut items = Vec::with_capacity(count);
        for _ in 0..count {
            items.push(item(self)?);
        }
        Some(Value::Items(items))
    }

    fn pair(&mut self) -> Option<Value> {
        Some(Value::Fields(1, vec![self.unsigned(1)?, self.unsigned(2)?]))
    }

    fn time(&mut self) -> Option<Value> {
        Some(Value::Fields(2, vec![self.unsigned(4)?, self.unsigned(2)?]))
    }

    /// A container of one array of numbers of 8 bits.
    fn array(&mut self) -> Option<Value> {
        let items = self.items(65_536, |reader| reader.unsigned(1))?;
        Some(Value::Fields(0, vec![items]))
    }

    /// A count of 16 bits, and so many pairs.
    fn list(&mut self) -> Option<Value> {
        let count = self.number(2)?;
        let items = self.items(count as usize, Self::pair)?;
        Some(Value::Fields(0, vec![Value::Number(count.into()), items]))
    }

    /// A text, a time in a container of its own, a mode, and a count with so many pairs.
    fn mixed(&mut self) -> Option<Value> {
        let name = self.text(16)?;
        let time = self.time()?;
        let mode = self.label()?;
        let count = self.number(1)?;
        let pairs = self.items(count as usize, Self::pair)?;
        Some(Value::Fields(0, vec![name, time, mode, Value::Number(count.into()), pairs]))
    }

    /// A packet of twenty scalars, as `packets.rs` has it.
    fn scalars(&mut self) -> Option<Value> {
        let mut words = [0u32; 8];
        for word in &mut words {
            *word = self.number(4)? as u32;
        }
        let [head, seconds, load, bias, drift, position, orbit, errors] = words;
        let groupings = ["CONTINUATION", "FIRST", "LAST", "UNSEGMENTED"];
        let digits = (0..4).rev().map(|digit| orbit >> (16 + 4 * digit) & 0xF);
        let duty = orbit & 0xFFFF;
        if duty > 1000 || digits.clone().any(|digit| digit > 9) {
            return None;
        }
        let sign = |negative: bool, number: u32| if negative { -i128::from(number) } else { number.into() };
        Some(Value::Fields(
            0,
            vec![
                Value::Number((head >> 29).into()),
                Value::Truth(head & 0x1000_0000 != 0),
                Value::Truth(head & 0x0800_0000 != 0),
                Value::Number((head >> 16 & 0x7FF).into()),
                Value::Label(groupings[(head >> 14 & 3) as usize].to_owned()),
                Value::Number((head & 0x3FFF).into()),
                Value::Number(seconds.into()),
                Value::Number(((load >> 16) as u16).swap_bytes().into()),
                mode_of(load >> 12 & 0xF)?,
                Value::Truth(load & 0x0800 != 0),
                Value::Number((((load << 5) as i16) >> 5).into()),
                Value::Number((((bias >> 16) as u16).swap_bytes() as i16).into()),
                Value::Number(sign(bias & 0x8000 != 0, bias >> 4 & 0x7FF)),
                Value::Truth(bias & 0xF == 0),
                Value::Number(sign(drift >> 31 != 0, if drift >> 31 != 0 { !drift >> 24 } else { drift >> 24 })),
                Value::Number((drift & 0xFF_FFFF).into()),
                Value::Number((position.swap_bytes() as i32).into()),
                Value::Number(digits.fold(0, |number, digit| 10 * number + digit).into()),
                Value::Number(duty.into()),
                Value::Number(errors.into()),
            ],
        ))
    }

    /// A telemetry packet of one of 64 kinds.
    fn kinds(&mut self) -> Option<Value> {
        let start = self.at;
        let first = self.number(2)?;
        let second = self.number(2)?;
        let length = self.number(2)?;
        let apid = first & 0x7FF;
        let flags = ["CONT", "FIRST", "LAST", "UNSEG"][(second >> 14) as usize];
        let mut fields = vec![
            Value::Number((first >> 13).into()),
            Value::Truth(first & 0x1000 != 0),
            Value::Truth(first & 0x0800 != 0),
            Value::Number(apid.into()),
            Value::Label(flags.to_owned()),
            Value::Number((second & 0x3FFF).into()),
        ];
        if apid >= 64 {
            return None;
        }
        match apid % 4 {
            0 => fields.extend([self.unsigned(2)?, self.signed_16()?]),
            1 => {
                let count = self.number(1)?;
                let temps = self.items(count as usize, Self::signed_16)?;
                fields.extend([Value::Number(count.into()), temps]);
            }
            2 => fields.extend([self.label()?, self.unsigned(4)?]),
            _ => fields.extend([self.text(8)?, self.unsigned(1)?]),
        }
        let check = self.octets[start..self.at].iter().fold(0xFFFFu16, |check, octet| {
            CRC16[usize::from((check >> 8) as u8 ^ octet)] ^ check << 8
        });
        if self.number(2)? != u64::from(check) || length as usize + 7 != self.at - start {
            return None;
        }
        Some(Value::Fields(apid as u32, fields))
    }
}

const fn remainders() -> [u16; 256] {
    let mut table = [0; 256];
    let mut octet = 0;
    while octet < 256 {
        let mut bits = (octet as u16) << 8;
        let mut step = 0;
        while step < 8 {
            bits = bits << 1 ^ if bits & 0x8000 == 0 { 0 } else { 0x1021 };
            step += 1;
        }
        table[octet] = bits;
        octet += 1;
    }
    table
}

static CRC16: [u16; 256] = remainders();

/// How a number is written.
#[derive(Clone, Copy)]
enum Form {
    Unsigned,
    TwosComplement,
    OnesComplement,
    SignMagnitude,
    Decimal,
}

/// A scalar of a packet: its bits, how they are written, whether the least octet comes first, and the numbers that it may be.
struct Scalar {
    bits: u32,
    form: Form,
    least_first: bool,
    low: i64,
    high: i64,
    listed: Option<Vec<i64>>,
}

/// The twenty scalars of the packet.
fn scalar_table() -> Vec<Scalar> {
    let plain = |bits, form| Scalar { bits, form, least_first: false, low: i64::MIN, high: i64::MAX, listed: None };
    let least = |bits, form| Scalar { least_first: true, ..plain(bits, form) };
    let label = |bits, listed| Scalar { listed: Some(listed), ..plain(bits, Form::Unsigned) };
    let mut table: Vec<Scalar> = [3, 1, 1, 11].into_iter().map(|bits| plain(bits, Form::Unsigned)).collect();
    table.push(label(2, vec![0, 1, 2, 3]));
    table.extend([plain(14, Form::Unsigned), plain(32, Form::Unsigned), least(16, Form::Unsigned)]);
    table.push(label(4, (0..16).filter(|&number| mode_of(number as u32).is_some()).collect()));
    table.extend([plain(1, Form::Unsigned), plain(11, Form::TwosComplement), least(16, Form::TwosComplement)]);
    table.extend([plain(12, Form::SignMagnitude), plain(4, Form::Unsigned), plain(8, Form::OnesComplement)]);
    table.extend([plain(24, Form::Unsigned), least(32, Form::TwosComplement), plain(16, Form::Decimal)]);
    table.push(Scalar { low: 0, high: 1000, ..plain(16, Form::Unsigned) });
    table.push(plain(32, Form::Unsigned));
    table
}

/// So many bits from a place on.
fn bits_at(octets: &[u8], at: usize, bits: u32) -> Option<u64> {
    let last = octets.get(at / 8..(at + bits as usize).div_ceil(8))?;
    let word = last.iter().fold(0u64, |word, &octet| word << 8 | u64::from(octet));
    Some(word >> (8 * last.len() - at % 8 - bits as usize) & (u64::MAX >> (64 - bits)))
}

fn number_of(scalar: &Scalar, raw: u64) -> Option<i64> {
    let raw = if scalar.least_first { raw.swap_bytes() >> (64 - scalar.bits) } else { raw };
    let negative = raw >> (scalar.bits - 1) & 1 == 1;
    let number = match scalar.form {
        Form::Unsigned => raw as i64,
        Form::TwosComplement => ((raw << (64 - scalar.bits)) as i64) >> (64 - scalar.bits),
        Form::OnesComplement if negative => -((!raw & (u64::MAX >> (64 - scalar.bits))) as i64),
        Form::SignMagnitude if negative => -((raw & !(1 << (scalar.bits - 1))) as i64),
        Form::OnesComplement | Form::SignMagnitude => raw as i64,
        Form::Decimal => {
            let mut number = 0;
            for digit in (0..scalar.bits / 4).rev().map(|digit| (raw >> (4 * digit) & 0xF) as i64) {
                if digit > 9 {
                    return None;
                }
                number = 10 * number + digit;
            }
            number
        }
    };
    let listed = scalar.listed.as_ref().is_none_or(|listed| listed.contains(&number));
    (listed && scalar.low <= number && number <= scalar.high).then_some(number)
}

/// Reads the scalars into the array, and tells how many bits they take.
fn read_numbers(table: &[Scalar], octets: &[u8], numbers: &mut [i64; 20]) -> Option<usize> {
    let mut at = 0;
    for (scalar, number) in table.iter().zip(numbers) {
        *number = number_of(scalar, bits_at(octets, at, scalar.bits)?)?;
        at += scalar.bits as usize;
    }
    Some(at)
}

fn sum_of_numbers(frame: &[u8], turns: u32) -> Option<u64> {
    let table = black_box(scalar_table());
    let mut numbers = [0; 20];
    let mut sum = 0u64;
    for _ in 0..turns {
        sum = sum.wrapping_add(read_numbers(&table, black_box(frame), &mut numbers)? as u64);
        black_box(&numbers);
    }
    Some(sum)
}

fn sum_of(kind: &str, frame: &[u8], turns: u32) -> Option<u64> {
    if kind == "numbers" {
        return sum_of_numbers(frame, turns);
    }
    let mut sum = 0u64;
    for _ in 0..turns {
        let mut reader = Reader { octets: black_box(frame), at: 0 };
        let value = match kind {
            "array" => reader.array(),
            "list" => reader.list(),
            "scalars" => reader.scalars(),
            "mixed" => reader.mixed(),
            _ => reader.kinds(),
        }?;
        sum = sum.wrapping_add(8 * reader.at as u64).wrapping_add(black_box(&value).weight());
    }
    Some(sum)
}

fn main() -> ExitCode {
    let words: Vec<String> = env::args().skip(1).collect();
    let [kind, frame, turns] = words.as_slice() else {
        println!("usage: trees array|list|scalars|numbers|kinds|mixed FRAME TURNS");
        return ExitCode::from(2);
    };
    let (Ok(frame), Ok(turns)) = (fs::read(frame), turns.parse()) else {
        return ExitCode::FAILURE;
    };
    match sum_of(kind, &frame, turns) {
        Some(sum) => {
            println!("turns {turns} sum {sum}");
            ExitCode::SUCCESS
        }
        None => ExitCode::FAILURE,
    }
}
