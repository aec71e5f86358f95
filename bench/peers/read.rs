//! Reads an instance text in one pass, as `mcf_instance::read` does, in plain Rust. The result is the first faulty line
//! with its fault, or the instance, which takes 32 bytes an arc.
#[path = "lines.rs"]
mod lines;

use lines::each_line;
use std::time::Instant;

#[derive(Clone, Copy)]
pub struct Arc {
    pub src: u32,
    pub dst: u32,
    pub low: i64,
    pub cap: i64,
    pub cost: i64,
}

#[derive(Clone, Copy)]
pub struct Heading {
    is_min: bool,
    nodes: u32,
    arcs: u32,
}

#[derive(Default)]
pub struct State {
    heading: Option<Heading>,
    listed: Vec<bool>,
    pub supplies: Vec<i64>,
    pub arcs: Vec<Arc>,
}

const KEPT: i64 = 1_000_000_000_000_000_000;
const PAST: i64 = KEPT + 1;
const SIZE: i64 = 1_000_000_000_000_000;
const COST: i64 = 1_000_000_000_000;

/// The number of a field. An absolute value above 10^18 becomes a number outside every range.
fn number(field: &[u8]) -> Result<i64, &'static str> {
    let (negative, digits) = match field {
        [b'-', digits @ ..] => (true, digits),
        [b'+', digits @ ..] => (false, digits),
        _ => (false, field),
    };
    if digits.is_empty() {
        return Err("number");
    }
    let mut sum = 0i64;
    for digit in digits {
        if !digit.is_ascii_digit() {
            return Err("number");
        }
        if sum <= KEPT {
            sum = sum.saturating_mul(10).saturating_add(i64::from(digit - b'0'));
        }
    }
    Ok(if sum > KEPT {
        PAST
    } else if negative {
        -sum
    } else {
        sum
    })
}

fn node(heading: Heading, value: i64) -> Result<u32, &'static str> {
    if (1..=i64::from(heading.nodes)).contains(&value) {
        Ok(value as u32)
    } else {
        Err("node")
    }
}

impl State {
    fn problem_line(&mut self, fields: &[&[u8]]) -> Result<(), &'static str> {
        if fields.len() != 4 {
            return Err("fields");
        }
        let is_min = match fields[1] {
            b"min" => true,
            b"asn" => false,
            _ => return Err("problem"),
        };
        let nodes = number(fields[2])?;
        let arcs = number(fields[3])?;
        if self.heading.is_some() {
            return Err("second-p");
        }
        if !(0..=1_000_000).contains(&nodes) || !(0..=10_000_000).contains(&arcs) {
            return Err("size");
        }
        self.listed = vec![false; nodes as usize];
        self.supplies = vec![if is_min { 0 } else { -1 }; nodes as usize];
        self.heading = Some(Heading { is_min, nodes: nodes as u32, arcs: arcs as u32 });
        Ok(())
    }

    fn node_line(&mut self, fields: &[&[u8]]) -> Result<(), &'static str> {
        let fits = match self.heading {
            None => fields.len() == 3 || fields.len() == 2,
            Some(heading) => fields.len() == if heading.is_min { 3 } else { 2 },
        };
        if !fits {
            return Err("fields");
        }
        let id = number(fields[1])?;
        let supply = if fields.len() == 3 { number(fields[2])? } else { 1 };
        let heading = self.heading.ok_or("before-p")?;
        let v = node(heading, id)?;
        if !self.arcs.is_empty() {
            return Err("late-n");
        }
        let place = v as usize - 1;
        if self.listed[place] {
            return Err("twice");
        }
        if !(-SIZE..=SIZE).contains(&supply) {
            return Err("supply");
        }
        self.listed[place] = true;
        self.supplies[place] = supply;
        Ok(())
    }

    fn arc_line(&mut self, fields: &[&[u8]]) -> Result<(), &'static str> {
        let fits = match self.heading {
            None => fields.len() == 6 || fields.len() == 4,
            Some(heading) => fields.len() == if heading.is_min { 6 } else { 4 },
        };
        if !fits {
            return Err("fields");
        }
        let src = number(fields[1])?;
        let dst = number(fields[2])?;
        let third = number(fields[3])?;
        let (low, cap, cost) = if fields.len() == 6 {
            (third, number(fields[4])?, number(fields[5])?)
        } else {
            (0, 1, third)
        };
        let heading = self.heading.ok_or("before-p")?;
        let src = node(heading, src)?;
        let dst = node(heading, dst)?;
        if !(-SIZE..=SIZE).contains(&low) || !(-SIZE..=SIZE).contains(&cap) {
            return Err("bound");
        }
        if cap < low {
            return Err("order");
        }
        if !(-COST..=COST).contains(&cost) {
            return Err("cost");
        }
        if heading.arcs as usize <= self.arcs.len() {
            return Err("extra");
        }
        if !heading.is_min && (!self.listed[src as usize - 1] || self.listed[dst as usize - 1]) {
            return Err("side");
        }
        self.arcs.push(Arc { src, dst, low, cap, cost });
        Ok(())
    }

    fn line(&mut self, fields: &[&[u8]]) -> Result<(), &'static str> {
        match fields[0] {
            b"p" => self.problem_line(fields),
            b"n" => self.node_line(fields),
            b"a" => self.arc_line(fields),
            _ => Err("kind"),
        }
    }
}

pub fn read(text: &[u8]) -> Result<State, (u128, &'static str)> {
    let mut state = State::default();
    let lines = each_line::<7, _>(text, |number, fields| state.line(fields).map_err(|code| (number, code)))?;
    match state.heading {
        None => Err((lines + 1, "no-p")),
        Some(heading) if state.arcs.len() < heading.arcs as usize => Err((lines + 1, "missing")),
        Some(_) => Ok(state),
    }
}

fn main() -> std::io::Result<()> {
    let path = std::env::args().nth(1).expect("usage: peer FILE");
    let text = std::fs::read(path)?;
    let start = Instant::now();
    let outcome = read(&text);
    let seconds = start.elapsed().as_secs_f64();
    match outcome {
        Ok(state) => {
            let mut sum = 0i128;
            for arc in &state.arcs {
                sum += i128::from(arc.src) + i128::from(arc.dst) + i128::from(arc.low);
                sum += i128::from(arc.cap) + i128::from(arc.cost);
            }
            let supplies: i128 = state.supplies.iter().map(|supply| i128::from(*supply).abs()).sum();
            println!("nodes {} arcs {} sum {sum} supplies {supplies}", state.supplies.len(), state.arcs.len());
        }
        Err((line, code)) => println!("refused {line} {code}"),
    }
    println!("seconds {seconds:.6}");
    Ok(())
}
