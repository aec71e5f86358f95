//! Judges an answer for an instance, as `mcf_checker::check` does, in plain Rust, over the reader and the
//! parser of the other peers.
#![allow(dead_code)]
#[path = "answer.rs"]
mod answering;
#[path = "read.rs"]
mod reading;

use answering::{Answer, Sent, parse};
use reading::{State, read};
use std::time::Instant;

/// The verdict on an answer in the full form.
fn judge_flow(instance: &State, cost: i128, sent: &[Sent], prices: &[i128]) -> String {
    let arcs = &instance.arcs;
    for k in 0..arcs.len().max(sent.len()) {
        let agrees = match (arcs.get(k), sent.get(k)) {
            (Some(arc), Some(sent)) => {
                arc.src == sent.src
                    && arc.dst == sent.dst
                    && i128::from(arc.low) <= sent.flow
                    && sent.flow <= i128::from(arc.cap)
            }
            _ => false,
        };
        if !agrees {
            return format!("rejected arc {}", k + 1);
        }
    }
    let flows: Vec<i128> = sent.iter().map(|sent| sent.flow).collect();
    judge_amounts(instance, cost, &flows, prices)
}

/// The verdict on an answer in the sparse form.
fn judge_sparse(instance: &State, cost: i128, moved: &[(u32, i128)], prices: &[i128]) -> String {
    let mut flows: Vec<i128> = instance.arcs.iter().map(|arc| i128::from(arc.low)).collect();
    for (number, flow) in moved {
        let place = *number as usize - 1;
        match instance.arcs.get(place) {
            Some(arc) if i128::from(arc.low) <= *flow && *flow <= i128::from(arc.cap) => flows[place] = *flow,
            _ => return format!("rejected arc {number}"),
        }
    }
    judge_amounts(instance, cost, &flows, prices)
}

/// The verdict on a flow that lies within the bounds of the arcs.
fn judge_amounts(instance: &State, cost: i128, flows: &[i128], prices: &[i128]) -> String {
    let arcs = &instance.arcs;
    let nodes = instance.supplies.len();
    let mut nets = vec![0i128; nodes];
    for (arc, flow) in arcs.iter().zip(flows) {
        nets[arc.src as usize - 1] += flow;
        nets[arc.dst as usize - 1] -= flow;
    }
    for v in 0..nodes.max(prices.len()) {
        if v >= nodes || v >= prices.len() || nets[v] != i128::from(instance.supplies[v]) {
            return format!("rejected node {}", v + 1);
        }
    }
    for (k, (arc, flow)) in arcs.iter().zip(flows).enumerate() {
        let reduced = i128::from(arc.cost) - prices[arc.src as usize - 1] + prices[arc.dst as usize - 1];
        if reduced > 0 && i128::from(arc.low) < *flow || reduced < 0 && *flow < i128::from(arc.cap) {
            return format!("rejected price {}", k + 1);
        }
    }
    let total: i128 = arcs.iter().zip(flows).map(|(arc, flow)| i128::from(arc.cost) * flow).sum();
    if total == cost { format!("accepted flow {cost}") } else { "rejected cost".to_string() }
}

/// The verdict on a blocking set.
fn judge_set(instance: &State, is_take: bool, nodes: &[u32]) -> String {
    let mut table = vec![false; instance.supplies.len()];
    for id in nodes {
        match table.get_mut(*id as usize - 1) {
            Some(mark) => *mark = true,
            None => return "rejected set".to_string(),
        }
    }
    let supply: i128 = nodes.iter().map(|id| i128::from(instance.supplies[*id as usize - 1])).sum();
    let (mut low_in, mut cap_in, mut low_out, mut cap_out) = (0i128, 0i128, 0i128, 0i128);
    for arc in &instance.arcs {
        match (table[arc.src as usize - 1], table[arc.dst as usize - 1]) {
            (false, true) => {
                low_in += i128::from(arc.low);
                cap_in += i128::from(arc.cap);
            }
            (true, false) => {
                low_out += i128::from(arc.low);
                cap_out += i128::from(arc.cap);
            }
            _ => {}
        }
    }
    let blocks = if is_take { cap_in < low_out - supply } else { cap_out < supply + low_in };
    if blocks { format!("accepted blocked {}", nodes.len()) } else { "rejected set".to_string() }
}

fn check(input: &[u8], answer: &[u8]) -> String {
    let outcome = read(input);
    let answer = match parse(answer) {
        Ok(answer) => answer,
        Err(line) => return format!("rejected shape {line}"),
    };
    match (outcome, answer) {
        (Err((line, word)), Answer::Refused { line: said, code }) => {
            if line == said as u128 && word == code {
                format!("accepted refusal {line} {code}")
            } else {
                "rejected refusal".to_string()
            }
        }
        (Ok(instance), Answer::Flow { cost, sent, prices }) => judge_flow(&instance, cost, &sent, &prices),
        (Ok(instance), Answer::Sparse { cost: Some(cost), moved, prices }) => judge_sparse(&instance, cost, &moved, &prices),
        (Ok(instance), Answer::Blocked { is_take, nodes, .. }) => judge_set(&instance, is_take, &nodes),
        _ => "rejected kind".to_string(),
    }
}

fn main() -> std::io::Result<()> {
    let mut words = std::env::args().skip(1);
    let (Some(instance), Some(answer)) = (words.next(), words.next()) else {
        panic!("usage: peer INSTANCE ANSWER");
    };
    let input = std::fs::read(instance)?;
    let answer = std::fs::read(answer)?;
    let start = Instant::now();
    let verdict = check(&input, &answer);
    let seconds = start.elapsed().as_secs_f64();
    println!("{verdict}");
    println!("seconds {seconds:.6}");
    Ok(())
}
