// The work of `mcf_bench text` in plain Rust, in one pass over the bytes: the lines, the fields, and
// each field as a whole number.
use std::time::Instant;
use std::{env, fs, io};

const LOW: i128 = -999_999_999_999_999_999;
const HIGH: i128 = 999_999_999_999_999_999;

enum Whole {
    Value(i128),
    NotWhole,
    OutOfRange,
}

#[derive(Default)]
struct Tally {
    lines: u64,
    fields: u64,
    numbers: u64,
    sum: i128,
}

fn is_blank(byte: u8) -> bool {
    matches!(byte, b' ' | b'\t' | b'\r')
}

// The number of up to 17 digits.
fn short_magnitude(digits: &[u8]) -> Option<u64> {
    let mut sum = 0u64;
    for byte in digits {
        let digit = byte.wrapping_sub(b'0');
        if digit > 9 {
            return None;
        }
        sum = sum * 10 + u64::from(digit);
    }
    Some(sum)
}

// The number of some digits, or the greatest `u128` if it is greater.
fn long_magnitude(digits: &[u8]) -> Option<u128> {
    let mut sum = 0u128;
    for byte in digits {
        let digit = byte.wrapping_sub(b'0');
        if digit > 9 {
            return None;
        }
        sum = sum.saturating_mul(10).saturating_add(u128::from(digit));
    }
    Some(sum)
}

fn whole(field: &[u8], low: i128, high: i128) -> Whole {
    let (is_negative, digits) = match field {
        [b'-', digits @ ..] => (true, digits),
        [b'+', digits @ ..] => (false, digits),
        _ => (false, field),
    };
    let magnitude = match digits.len() {
        0 => None,
        1..=17 => short_magnitude(digits).map(u128::from),
        _ => long_magnitude(digits),
    };
    let Some(magnitude) = magnitude else {
        return Whole::NotWhole;
    };
    let value = if is_negative {
        0i128.checked_sub_unsigned(magnitude)
    } else {
        0i128.checked_add_unsigned(magnitude)
    };
    match value {
        Some(value) if low <= value && value <= high => Whole::Value(value),
        _ => Whole::OutOfRange,
    }
}

// Whether a byte ends the field before it.
fn ends_field(byte: u8) -> bool {
    matches!(byte, b' ' | b'\t' | b'\r' | b'\n')
}

fn count(text: &[u8]) -> Tally {
    let mut tally = Tally::default();
    let mut at = 0;
    while at < text.len() {
        let byte = text[at];
        if byte == b'\n' {
            tally.lines += 1;
            at += 1;
        } else if is_blank(byte) {
            at += 1;
        } else {
            let rest = &text[at..];
            let end = rest.iter().position(|byte| ends_field(*byte)).unwrap_or(rest.len());
            tally.fields += 1;
            match whole(&rest[..end], LOW, HIGH) {
                Whole::Value(value) => {
                    tally.numbers += 1;
                    tally.sum = tally.sum.wrapping_add(value);
                }
                Whole::NotWhole | Whole::OutOfRange => {}
            }
            at += end;
        }
    }
    if text.last().is_some_and(|byte| *byte != b'\n') {
        tally.lines += 1;
    }
    tally
}

fn main() -> io::Result<()> {
    let path = env::args().nth(1).ok_or(io::ErrorKind::InvalidInput)?;
    let start = Instant::now();
    let text = fs::read(path)?;
    let read = start.elapsed();
    let start = Instant::now();
    let tally = count(&text);
    let split = start.elapsed();
    println!("lines {} fields {} numbers {} sum {}", tally.lines, tally.fields, tally.numbers, tally.sum);
    println!("read_seconds {:.6}", read.as_secs_f64());
    println!("seconds {:.6}", split.as_secs_f64());
    Ok(())
}
