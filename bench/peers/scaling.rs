//! Solves a net by cost scaling, as `Scaling` of `mcf_scaling` does, in plain Rust: a feasible flow, phases of pushes
//! and relabels depth first, and the greatest prices. A residual arc takes 16 bytes in the forward star; the top bit of
//! its head is set if it has no residual capacity. The phases read these without a test of the index.
#![allow(dead_code)]
#[path = "raise.rs"]
mod raising;

use raising::recovering::feasibility::net::{Net, instance_of};
use raising::recovering::feasibility::{Feas, State, feasible};
use raising::{Heap, raise};
use std::collections::VecDeque;
use std::time::Instant;

/// A residual arc: its unit cost, its head, and its arc with the direction. Nodes count from 0 here.
#[derive(Clone, Copy)]
struct Place {
    cost: i64,
    head: u32,
    link: u32,
}

/// The bit that marks the head of a residual arc without residual capacity.
const FULL: u32 = 1 << 31;

macro_rules! at {
    ($list:expr, $i:expr) => {
        unsafe { *$list.get_unchecked($i as usize) }
    };
}

macro_rules! at_mut {
    ($list:expr, $i:expr) => {
        *unsafe { $list.get_unchecked_mut($i as usize) }
    };
}

struct Refine<'n> {
    state: State<'n>,
    /// The place of the first residual arc of each node, and the end after the last node.
    firsts: Vec<u32>,
    places: Vec<Place>,
    /// The places of each arc's two residual arcs, forward and backward.
    sites: Vec<[u32; 2]>,
    prices: Vec<i128>,
    currents: Vec<u32>,
    waits: Vec<bool>,
    queue: VecDeque<u32>,
    power: i128,
    factor: i64,
    pushes: u64,
    relabels: u64,
}

impl<'n> Refine<'n> {
    fn start(state: State<'n>) -> Refine<'n> {
        let net = state.net;
        let nodes = net.node_count();
        let (mut firsts, mut places) = (Vec::with_capacity(nodes as usize + 1), Vec::with_capacity(2 * net.arcs.len()));
        let mut sites = vec![[0; 2]; net.arcs.len()];
        for v in 1..=nodes {
            firsts.push(places.len() as u32);
            for rid in net.leaving(v) {
                sites[rid.arc as usize][usize::from(rid.back)] = places.len() as u32;
                let full = if state.room(*rid) > 0 { 0 } else { FULL };
                let head = (net.route(*rid).1 - 1) | full;
                places.push(Place { cost: net.unit_cost(*rid) as i64, head, link: rid.arc << 1 | u32::from(rid.back) });
            }
        }
        firsts.push(places.len() as u32);
        let factor = i64::from(nodes) + 1;
        let greatest = net.arcs.iter().map(|arc| i128::from(arc.cost).abs()).max().unwrap_or(0);
        let mut power = 1;
        while power < greatest * i128::from(factor) {
            power *= 2;
        }
        let (prices, currents) = (vec![0; nodes as usize], firsts[..nodes as usize].to_vec());
        let (waits, queue) = (vec![false; nodes as usize], VecDeque::with_capacity(nodes as usize));
        Refine { state, firsts, places, sites, prices, currents, waits, queue, power, factor, pushes: 0, relabels: 0 }
    }

    fn reduced(&self, price: i128, place: Place) -> i128 {
        i128::from(place.cost) * i128::from(self.factor) - price + at!(self.prices, place.head & !FULL)
    }

    fn room(&self, place: Place) -> i64 {
        let (arc, amount) = (at!(self.state.net.arcs, place.link >> 1), at!(self.state.amounts, place.link >> 1));
        if place.link & 1 == 1 { amount } else { arc.width - amount }
    }

    /// Pushes an amount along a residual arc out of node `v`, and updates the marks of both residual arcs.
    fn push(&mut self, v: u32, place: Place, amount: i64) {
        let (arc, back) = (place.link >> 1, place.link & 1 == 1);
        let moved = at!(self.state.amounts, arc) + if back { -amount } else { amount };
        at_mut!(self.state.amounts, arc) = moved;
        at_mut!(self.state.surpluses, v) -= i128::from(amount);
        at_mut!(self.state.surpluses, place.head & !FULL) += i128::from(amount);
        let (forward, backward) = at!(self.sites, arc).into();
        let width = at!(self.state.net.arcs, arc).width;
        if back && moved == 0 || !back && moved == width {
            at_mut!(self.places, if back { backward } else { forward }).head |= FULL;
        }
        if moved == amount && !back || moved + amount == width && back {
            at_mut!(self.places, if back { forward } else { backward }).head &= !FULL;
        }
    }

    /// Halves e, and saturates each residual arc of negative reduced cost.
    fn begin(&mut self) {
        self.power /= 2;
        for v in 0..self.state.net.node_count() {
            for i in at!(self.firsts, v)..at!(self.firsts, v + 1) {
                let place = at!(self.places, i);
                if place.head < FULL && self.reduced(at!(self.prices, v), place) < 0 {
                    self.push(v, place, self.room(place));
                }
            }
        }
        for v in 0..self.state.net.node_count() {
            self.enqueue(v);
        }
    }

    fn enqueue(&mut self, v: u32) {
        if at!(self.state.surpluses, v) > 0 && !at!(self.waits, v) {
            at_mut!(self.waits, v) = true;
            self.queue.push_back(v);
        }
    }

    /// The first active node of the queue.
    fn active(&mut self) -> Option<u32> {
        while let Some(&v) = self.queue.front() {
            if at!(self.state.surpluses, v) > 0 {
                return Some(v);
            }
            self.queue.pop_front();
            at_mut!(self.waits, v) = false;
        }
        None
    }

    fn admissible(&mut self, v: u32) -> Option<Place> {
        let (end, price) = (at!(self.firsts, v + 1), at!(self.prices, v));
        let mut i = at!(self.currents, v);
        while i < end {
            let place = at!(self.places, i);
            if place.head < FULL && self.reduced(price, place) < 0 {
                at_mut!(self.currents, v) = i;
                return Some(place);
            }
            i += 1;
        }
        at_mut!(self.currents, v) = end;
        None
    }

    fn relabel(&mut self, v: u32) {
        let (first, end, price) = (at!(self.firsts, v), at!(self.firsts, v + 1), at!(self.prices, v));
        let mut least = i128::MAX;
        for i in first..end {
            let place = at!(self.places, i);
            if place.head < FULL {
                least = least.min(self.reduced(price, place));
            }
        }
        at_mut!(self.prices, v) = price + least + self.power;
        at_mut!(self.currents, v) = first;
        self.relabels += 1;
    }

    /// Pushes and relabels until no node is active. After a push to an active node it continues there.
    fn settle(&mut self) {
        let mut next = self.active();
        while let Some(v) = next {
            let Some(place) = self.admissible(v) else {
                self.relabel(v);
                continue;
            };
            let amount = at!(self.state.surpluses, v).min(i128::from(self.room(place))) as i64;
            self.push(v, place, amount);
            self.pushes += 1;
            let to = place.head;
            self.enqueue(to);
            next = if at!(self.state.surpluses, to) > 0 { Some(to) } else { self.active() };
        }
    }
}

fn cost_of(state: &State) -> i128 {
    state.net.arcs.iter().zip(&state.amounts).map(|(arc, amount)| i128::from(arc.cost) * i128::from(*amount)).sum()
}

fn main() -> std::io::Result<()> {
    let words: Vec<String> = std::env::args().skip(1).collect();
    let [instance] = &words[..] else {
        panic!("usage: peer INSTANCE");
    };
    let net = Net::of(&instance_of(instance)?);
    let start = Instant::now();
    let Feas::Flow(state) = feasible(&net) else {
        println!("blocked\nseconds {:.6}", start.elapsed().as_secs_f64());
        return Ok(());
    };
    let feasible_seconds = start.elapsed().as_secs_f64();
    let mut refine = Refine::start(state);
    while refine.power > 1 {
        refine.begin();
        refine.settle();
    }
    let mut heap = Heap::new(refine.prices.len());
    raise(&mut heap, &refine.state, i128::from(refine.factor), 1, &mut refine.prices);
    let seconds = start.elapsed().as_secs_f64();
    println!("cost {}", cost_of(&refine.state));
    println!("seconds {seconds:.6}");
    println!("feasible_seconds {feasible_seconds:.6}");
    eprintln!("{} pushes, {} relabels", refine.pushes, refine.relabels);
    Ok(())
}
