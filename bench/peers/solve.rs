//! Reads an instance text, copies the instance, and writes an answer of the same shape, in plain Rust: the work of
//! `mcf solve` without the engine. The answer is correct for an instance without supplies whose lower bounds are 0 and
//! whose costs aren't negative.
#[path = "read.rs"]
#[allow(dead_code)]
mod reading;

use std::fmt::Write as _;
use std::time::Instant;

struct Sent {
    src: u32,
    dst: u32,
    flow: i128,
}

/// The flow of each arc, with the arc's ends, and the cost.
fn copied(state: &reading::State) -> (i128, Vec<Sent>) {
    let mut cost = 0;
    let mut sent = Vec::with_capacity(state.arcs.len());
    for arc in &state.arcs {
        let flow = i128::from(arc.low);
        cost += i128::from(arc.cost) * flow;
        sent.push(Sent { src: arc.src, dst: arc.dst, flow });
    }
    (cost, sent)
}

fn written(cost: i128, sent: &[Sent], prices: &[i128]) -> String {
    let mut out = String::new();
    writeln!(out, "s {cost}").unwrap();
    for Sent { src, dst, flow } in sent {
        writeln!(out, "f {src} {dst} {flow}").unwrap();
    }
    for (place, price) in prices.iter().enumerate() {
        writeln!(out, "y {} {price}", place + 1).unwrap();
    }
    out
}

fn main() -> std::io::Result<()> {
    let path = std::env::args().nth(1).expect("usage: peer INSTANCE");
    let text = std::fs::read(path)?;
    let start = Instant::now();
    let out = match reading::read(&text) {
        Ok(state) => {
            let (cost, sent) = copied(&state);
            let prices = vec![0; state.supplies.len()];
            written(cost, &sent, &prices)
        }
        Err((line, code)) => format!("r {line} {code}\n"),
    };
    let seconds = start.elapsed().as_secs_f64();
    let kind = if out.starts_with('s') { "flow" } else { "refused" };
    println!("{kind} bytes {}", out.len());
    println!("seconds {seconds:.6}");
    Ok(())
}
