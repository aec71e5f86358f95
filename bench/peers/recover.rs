//! Recovers prices from the flow of an answer, as `mcf_cancel::recover` does, in plain Rust: a label-correcting search
//! lowers prices from 0 in rounds of a queue, and looks after each round for a cycle of predecessor arcs.
#![allow(dead_code)]
#[path = "answer.rs"]
pub mod answering;
#[path = "feasible.rs"]
pub mod feasibility;

use answering::{Answer, parse};
use feasibility::State;
use feasibility::net::{Net, Rid, instance_of};
use std::mem;
use std::time::Instant;

/// A queue that holds each node at most once.
struct Queue {
    marks: Vec<bool>,
    nodes: Vec<u32>,
}

impl Queue {
    fn new(nodes: usize) -> Queue {
        Queue { marks: vec![false; nodes], nodes: Vec::with_capacity(nodes) }
    }

    fn insert(&mut self, v: u32) {
        if !self.marks[v as usize - 1] {
            self.nodes.push(v);
            self.marks[v as usize - 1] = true;
        }
    }

    fn clear(&mut self) {
        self.marks.fill(false);
        self.nodes.clear();
    }
}

/// The price of each node, and its predecessor arc: the residual arc that gave the price.
struct Search<'s, 'n> {
    state: &'s State<'n>,
    prices: Vec<i128>,
    links: Vec<Option<Rid>>,
}

impl Search<'_, '_> {
    /// Whether a residual arc lowers the price of its tail.
    fn relax(&mut self, rid: Rid) -> bool {
        if self.state.room(rid) <= 0 {
            return false;
        }
        let (from, to) = self.state.net.route(rid);
        let price = self.state.net.unit_cost(rid) + self.prices[to as usize - 1];
        if self.prices[from as usize - 1] <= price {
            return false;
        }
        self.prices[from as usize - 1] = price;
        self.links[from as usize - 1] = Some(rid);
        true
    }

    fn round(&mut self, waiting: &Queue, fallen: &mut Queue) {
        let net = self.state.net;
        for w in &waiting.nodes {
            for leaving in net.leaving(*w) {
                let entering = Rid { arc: leaving.arc, back: !leaving.back };
                if self.relax(entering) {
                    fallen.insert(net.route(entering).0);
                }
            }
        }
    }

    /// A cycle of predecessor arcs, if there is one.
    fn cycle(&self) -> Option<Vec<Rid>> {
        let nodes = self.prices.len();
        let mut seen = vec![false; nodes];
        let mut done = vec![false; nodes];
        for from in 1..=nodes as u32 {
            let mut path = Vec::new();
            let mut at = from;
            while !seen[at as usize - 1] {
                seen[at as usize - 1] = true;
                let Some(rid) = self.links[at as usize - 1] else {
                    break;
                };
                path.push(rid);
                at = self.state.net.route(rid).1;
            }
            if !done[at as usize - 1] && self.links[at as usize - 1].is_some() {
                let first = path.iter().position(|rid| self.state.net.route(*rid).0 == at);
                return Some(path.split_off(first.expect("a cycle")));
            }
            while let Some(rid) = path.pop() {
                done[self.state.net.route(rid).0 as usize - 1] = true;
            }
        }
        None
    }
}

pub enum Recovered {
    Prices(Vec<i128>),
    Cycle(Vec<Rid>),
}

pub fn recover(state: &State) -> Recovered {
    let nodes = state.net.supplies.len();
    let mut search = Search { state, prices: vec![0; nodes], links: vec![None; nodes] };
    let mut waiting = Queue::new(nodes);
    (1..=nodes as u32).for_each(|v| waiting.insert(v));
    let mut fallen = Queue::new(nodes);
    loop {
        search.round(&waiting, &mut fallen);
        if fallen.nodes.is_empty() {
            return Recovered::Prices(search.prices);
        }
        if let Some(walk) = search.cycle() {
            return Recovered::Cycle(walk);
        }
        mem::swap(&mut waiting, &mut fallen);
        fallen.clear();
    }
}

/// The state with the flow of the answer.
pub fn state_of<'n>(net: &'n Net, answer: &Answer) -> State<'n> {
    let mut state = State::zero(net);
    if let Answer::Flow { sent, .. } = answer {
        for (k, sent) in sent.iter().enumerate() {
            let rid = Rid { arc: k as u32, back: false };
            if (0..=state.room(rid)).contains(&sent.flow) {
                state.push(rid, sent.flow);
            }
        }
    }
    state
}

fn said(recovered: &Recovered) -> String {
    match recovered {
        Recovered::Prices(prices) => format!("prices {} sum {}", prices.len(), prices.iter().sum::<i128>()),
        Recovered::Cycle(walk) => format!("cycle {}", walk.len()),
    }
}

fn main() -> std::io::Result<()> {
    let words: Vec<String> = std::env::args().skip(1).collect();
    let [instance, answer, times] = &words[..] else {
        panic!("usage: peer INSTANCE ANSWER TIMES");
    };
    let times: u32 = times.parse().expect("a number");
    let net = Net::of(&instance_of(instance)?);
    let answer = parse(&std::fs::read(answer)?).unwrap_or_else(|line| panic!("no answer at line {line}"));
    let state = state_of(&net, &answer);
    let mut recovered = Recovered::Cycle(Vec::new());
    let start = Instant::now();
    for _ in 0..times {
        recovered = recover(&state);
    }
    let seconds = start.elapsed().as_secs_f64();
    println!("{}", said(&recovered));
    println!("seconds {seconds:.6}");
    Ok(())
}
