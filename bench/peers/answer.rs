//! Parses an answer text and writes it anew, as `mcf_answer` does, in plain Rust.
#[path = "lines.rs"]
mod lines;

use lines::each_line;
use std::fmt::Write as _;
use std::time::Instant;

#[derive(Clone, Copy)]
pub struct Sent {
    pub src: u32,
    pub dst: u32,
    pub flow: i128,
}

pub enum Answer {
    Flow { cost: i128, sent: Vec<Sent>, prices: Vec<i128> },
    /// A flow in the sparse form. Without a cost, the parser has read only the opening line.
    Sparse { cost: Option<i128>, moved: Vec<(u32, i128)>, prices: Vec<i128> },
    Blocked { is_take: bool, count: i128, nodes: Vec<u32> },
    Refused { line: i128, code: String },
}

const AMOUNT: i128 = 10_000_000_000_000_000_000_000_000_000_000_000_000;
const CODES: [&str; 19] = [
    "kind", "fields", "problem", "number", "second-p", "before-p", "size", "node", "late-n", "twice",
    "supply", "bound", "order", "cost", "extra", "side", "total", "no-p", "missing",
];

/// The whole number of a field, if it lies from `lo` to `hi`. Up to 17 digits take 64-bit arithmetic.
fn number(field: &[u8], lo: i128, hi: i128) -> Option<i128> {
    let (negative, digits) = match field {
        [b'-', digits @ ..] => (true, digits),
        [b'+', digits @ ..] => (false, digits),
        _ => (false, field),
    };
    if digits.is_empty() || !digits.iter().all(u8::is_ascii_digit) {
        return None;
    }
    let size = if digits.len() <= 17 {
        i128::from(digits.iter().fold(0u64, |sum, digit| sum * 10 + u64::from(digit - b'0')))
    } else {
        digits
            .iter()
            .fold(0i128, |sum, digit| sum.saturating_mul(10).saturating_add(i128::from(digit - b'0')))
    };
    let value = if negative { -size } else { size };
    (lo..=hi).contains(&value).then_some(value)
}

fn amount(field: &[u8]) -> Option<i128> {
    number(field, -AMOUNT, AMOUNT)
}

fn node(field: &[u8]) -> Option<u32> {
    number(field, 1, 1_000_000).map(|value| value as u32)
}

fn open(fields: &[&[u8]]) -> Option<Answer> {
    match fields {
        [b"s", cost] => Some(Answer::Flow { cost: amount(cost)?, sent: Vec::new(), prices: Vec::new() }),
        [b"v", version] => {
            number(version, 2, 2)?;
            Some(Answer::Sparse { cost: None, moved: Vec::new(), prices: Vec::new() })
        }
        [b"i", count, side] => {
            let is_take = match *side {
                b"send" => false,
                b"take" => true,
                _ => return None,
            };
            Some(Answer::Blocked { is_take, count: i128::from(node(count)?), nodes: Vec::new() })
        }
        [b"r", line, code] => {
            let code = std::str::from_utf8(code).ok().filter(|code| CODES.contains(code))?;
            Some(Answer::Refused { line: number(line, 1, AMOUNT)?, code: code.to_string() })
        }
        _ => None,
    }
}

fn take(answer: &mut Answer, fields: &[&[u8]]) -> Option<()> {
    match (answer, fields) {
        (Answer::Flow { sent, prices, .. }, [b"f", src, dst, flow]) if prices.is_empty() => {
            sent.push(Sent { src: node(src)?, dst: node(dst)?, flow: amount(flow)? });
            Some(())
        }
        (Answer::Flow { prices, .. }, [b"y", id, price]) if node(id)? as usize == prices.len() + 1 => {
            prices.push(amount(price)?);
            Some(())
        }
        (Answer::Sparse { cost, .. }, fields) if cost.is_none() => {
            let [b"s", said] = fields else { return None };
            *cost = Some(amount(said)?);
            Some(())
        }
        (Answer::Sparse { moved, prices, .. }, [b"g", arc, flow]) if prices.is_empty() => {
            let arc = number(arc, 1, 10_000_000)? as u32;
            if moved.last().is_some_and(|last| last.0 >= arc) {
                return None;
            }
            moved.push((arc, amount(flow)?));
            Some(())
        }
        (Answer::Sparse { prices, .. }, [b"y", id, price]) if node(id)? as usize == prices.len() + 1 => {
            prices.push(amount(price)?);
            Some(())
        }
        (Answer::Blocked { count, nodes, .. }, [b"x", id]) if (nodes.len() as i128) < *count => {
            let id = node(id)?;
            if nodes.last().is_some_and(|last| *last >= id) {
                return None;
            }
            nodes.push(id);
            Some(())
        }
        _ => None,
    }
}

pub fn parse(text: &[u8]) -> Result<Answer, u128> {
    let mut answer = None;
    let lines = each_line::<5, u128>(text, |number, fields| {
        match &mut answer {
            None => answer = Some(open(fields).ok_or(number)?),
            Some(answer) => take(answer, fields).ok_or(number)?,
        }
        Ok(())
    })?;
    match answer {
        Some(Answer::Blocked { count, nodes, .. }) if count != nodes.len() as i128 => Err(lines + 1),
        Some(Answer::Sparse { cost: None, .. }) => Err(lines + 1),
        Some(answer) => Ok(answer),
        None => Err(lines + 1),
    }
}

fn write(answer: &Answer) -> String {
    let mut out = String::new();
    match answer {
        Answer::Flow { cost, sent, prices } => {
            writeln!(out, "s {cost}").unwrap();
            for Sent { src, dst, flow } in sent {
                writeln!(out, "f {src} {dst} {flow}").unwrap();
            }
            for (id, price) in prices.iter().enumerate() {
                writeln!(out, "y {} {price}", id + 1).unwrap();
            }
        }
        Answer::Sparse { cost, moved, prices } => {
            writeln!(out, "v 2").unwrap();
            if let Some(cost) = cost {
                writeln!(out, "s {cost}").unwrap();
            }
            for (arc, flow) in moved {
                writeln!(out, "g {arc} {flow}").unwrap();
            }
            for (id, price) in prices.iter().enumerate() {
                writeln!(out, "y {} {price}", id + 1).unwrap();
            }
        }
        Answer::Blocked { is_take, nodes, .. } => {
            writeln!(out, "i {} {}", nodes.len(), if *is_take { "take" } else { "send" }).unwrap();
            for id in nodes {
                writeln!(out, "x {id}").unwrap();
            }
        }
        Answer::Refused { line, code } => writeln!(out, "r {line} {code}").unwrap(),
    }
    out
}

fn main() -> std::io::Result<()> {
    let path = std::env::args().nth(1).expect("usage: peer ANSWER");
    let text = std::fs::read(path)?;
    let start = Instant::now();
    let parsed = parse(&text);
    let parse_seconds = start.elapsed().as_secs_f64();
    let answer = match parsed {
        Ok(answer) => answer,
        Err(line) => {
            println!("no answer at line {line}");
            return Ok(());
        }
    };
    let start = Instant::now();
    let out = write(&answer);
    let write_seconds = start.elapsed().as_secs_f64();
    println!("bytes {} same {}", out.len(), out.as_bytes() == text);
    println!("parse_seconds {parse_seconds:.6}");
    println!("seconds {:.6}", parse_seconds + write_seconds);
    Ok(())
}
