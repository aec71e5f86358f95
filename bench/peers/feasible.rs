//! Finds a feasible flow of a net, as `mcf_feas::feasible` does, in plain Rust. Each round pushes excess down the
//! levels of the nodes. A breadth-first search from all nodes with an excess then looks for a node with a deficit, and
//! the round ends with an augmentation along the path to that node.
#![allow(dead_code)]
#[path = "net.rs"]
pub mod net;

use net::{Net, Rid, instance_of};
use std::collections::VecDeque;
use std::time::Instant;

/// The flow of each arc, and the excess of each node.
pub struct State<'n> {
    pub net: &'n Net,
    pub amounts: Vec<i64>,
    pub surpluses: Vec<i128>,
}

impl<'n> State<'n> {
    pub fn zero(net: &'n Net) -> State<'n> {
        State { net, amounts: vec![0; net.arcs.len()], surpluses: net.supplies.clone() }
    }

    pub fn room(&self, rid: Rid) -> i128 {
        let amount = i128::from(self.amounts[rid.arc as usize]);
        if rid.back { amount } else { i128::from(self.net.arcs[rid.arc as usize].width) - amount }
    }

    pub fn push(&mut self, rid: Rid, amount: i128) {
        let (from, to) = self.net.route(rid);
        self.amounts[rid.arc as usize] += if rid.back { -amount as i64 } else { amount as i64 };
        self.surpluses[from as usize - 1] -= amount;
        self.surpluses[to as usize - 1] += amount;
    }

    fn surplus(&self, v: u32) -> i128 {
        self.surpluses[v as usize - 1]
    }
}

/// A node that a search reached, and its predecessor: the predecessor's place in the queue, and the residual arc.
#[derive(Clone, Copy)]
struct Visit {
    node: u32,
    link: Option<(u32, Rid)>,
}

struct Search {
    reached: Vec<bool>,
    visits: Vec<Visit>,
    path: Vec<Rid>,
}

impl Search {
    fn new(nodes: usize) -> Search {
        Search { reached: vec![false; nodes], visits: Vec::with_capacity(nodes), path: Vec::with_capacity(nodes) }
    }

    fn visit(&mut self, node: u32, link: Option<(u32, Rid)>) {
        self.visits.push(Visit { node, link });
        self.reached[node as usize - 1] = true;
    }

    /// Visits the nodes with an excess. Returns whether there is one.
    fn start(&mut self, state: &State) -> bool {
        self.reached.fill(false);
        self.visits.clear();
        for node in 1..=state.net.node_count() {
            if state.surplus(node) > 0 {
                self.visit(node, None);
            }
        }
        !self.visits.is_empty()
    }

    /// Visits reachable nodes until one has a deficit. Returns whether one has.
    fn run(&mut self, state: &State) -> bool {
        let mut place = 0;
        while place < self.visits.len() {
            for along in state.net.leaving(self.visits[place].node) {
                if state.room(*along) <= 0 {
                    continue;
                }
                let (_, to) = state.net.route(*along);
                if self.reached[to as usize - 1] {
                    continue;
                }
                self.visit(to, Some((place as u32, *along)));
                if state.surplus(to) < 0 {
                    return true;
                }
            }
            place += 1;
        }
        false
    }

    /// Augments along the path to the last visited node by the path's residual capacity, as far as the ends allow.
    fn augment(&mut self, state: &mut State) {
        self.path.clear();
        let mut place = self.visits.len() - 1;
        let mut amount = -state.surplus(self.visits[place].node);
        while let Some((before, along)) = self.visits[place].link {
            amount = amount.min(state.room(along));
            self.path.push(along);
            place = before as usize;
        }
        amount = amount.min(state.surplus(self.visits[place].node));
        for along in self.path.iter().rev() {
            state.push(*along, amount);
        }
    }
}

/// The level of each node, and the queue of active nodes.
struct Preflow {
    levels: Vec<u32>,
    queue: VecDeque<u32>,
}

impl Preflow {
    fn new(nodes: usize) -> Preflow {
        Preflow { levels: vec![0; nodes], queue: VecDeque::with_capacity(nodes) }
    }

    /// Finds each node's distance to the nodes with a deficit, then visits active nodes, first in, first out. Ends when
    /// the queue is empty or after as many visits as there are nodes.
    fn round(&mut self, state: &mut State) {
        self.set_levels(state);
        self.start(state);
        for _ in 0..state.net.node_count() {
            let Some(node) = self.queue.pop_front() else {
                return;
            };
            self.visit(state, node);
        }
    }

    fn start(&mut self, state: &State) {
        self.queue.clear();
        for node in 1..=state.net.node_count() {
            self.wake(state, node);
        }
    }

    fn set_levels(&mut self, state: &State) {
        self.queue.clear();
        let far = state.net.node_count();
        for node in 1..=far {
            let takes = state.surplus(node) < 0;
            self.levels[node as usize - 1] = if takes { 0 } else { far };
            if takes {
                self.queue.push_back(node);
            }
        }
        self.search_back(state);
    }

    /// Searches backward from the queue.
    fn search_back(&mut self, state: &State) {
        let far = state.net.node_count();
        while let Some(node) = self.queue.pop_front() {
            let level = self.levels[node as usize - 1] + 1;
            for along in state.net.leaving(node) {
                if !along.back && state.amounts[along.arc as usize] == 0 {
                    continue;
                }
                let (_, from) = state.net.route(*along);
                if self.levels[from as usize - 1] < far || state.room(Rid { back: !along.back, ..*along }) <= 0 {
                    continue;
                }
                self.levels[from as usize - 1] = level;
                self.queue.push_back(from);
            }
        }
    }

    fn wake(&mut self, state: &State, node: u32) {
        if state.surplus(node) > 0 {
            self.queue.push_back(node);
        }
    }

    /// Pushes a node's excess to lower nodes, and lifts the node if some is left.
    fn visit(&mut self, state: &mut State, node: u32) {
        let net = state.net;
        let level = self.levels[node as usize - 1];
        let mut least = net.node_count();
        for along in net.leaving(node) {
            let other = self.open_level(state, *along);
            if other >= level {
                least = least.min(other);
                continue;
            }
            if self.push_share(state, *along) {
                return;
            }
            least = least.min(self.open_level(state, *along));
        }
        self.levels[node as usize - 1] = least + 1;
        if least + 1 < net.node_count() {
            self.queue.push_back(node);
        }
    }

    fn open_level(&self, state: &State, along: Rid) -> u32 {
        if state.room(along) <= 0 { state.net.node_count() } else { self.levels[state.net.route(along).1 as usize - 1] }
    }

    /// Pushes the tail's excess along a residual arc, up to the residual capacity, and to a head with a deficit up to
    /// that deficit.
    fn push_share(&mut self, state: &mut State, along: Rid) -> bool {
        let (from, to) = state.net.route(along);
        let held = state.surplus(from);
        if held <= 0 {
            return true;
        }
        let before = state.surplus(to);
        let mut amount = held.min(state.room(along));
        if before < 0 {
            amount = amount.min(-before);
        }
        state.push(along, amount);
        if before <= 0 {
            if before < 0 && state.surplus(to) >= 0 {
                self.lift(state, to);
            }
            self.wake(state, to);
        }
        amount == held
    }

    fn lift(&mut self, state: &State, node: u32) {
        let opens = state.net.leaving(node).iter().map(|along| self.open_level(state, *along));
        self.levels[node as usize - 1] = opens.min().map_or(state.net.node_count(), |least| least + 1);
    }
}

pub enum Feas<'n> {
    Flow(State<'n>),
    Blocked(Vec<bool>),
}

pub fn feasible(net: &Net) -> Feas<'_> {
    let nodes = net.supplies.len();
    if net.supplies.iter().sum::<i128>() != 0 {
        return Feas::Blocked(vec![true; nodes]);
    }
    let mut state = State::zero(net);
    let mut preflow = Preflow::new(nodes);
    let mut search = Search::new(nodes);
    preflow.round(&mut state);
    while search.start(&state) {
        if !search.run(&state) {
            return Feas::Blocked(search.reached);
        }
        search.augment(&mut state);
        preflow.round(&mut state);
    }
    Feas::Flow(state)
}

/// The sum over the arcs of flow times arc number, or the number of nodes that block.
fn said(outcome: &Feas) -> String {
    match outcome {
        Feas::Flow(state) => {
            let sum = state.amounts.iter().zip(1i128..).fold(0i128, |sum, (amount, k)| sum + k * i128::from(*amount));
            format!("flow {sum}")
        }
        Feas::Blocked(set) => format!("blocked {}", set.iter().filter(|is_in| **is_in).count()),
    }
}

fn main() -> std::io::Result<()> {
    let words: Vec<String> = std::env::args().skip(1).collect();
    let [path, times] = &words[..] else {
        panic!("usage: peer INSTANCE TIMES");
    };
    let times: u32 = times.parse().expect("a number");
    let net = Net::of(&instance_of(path)?);
    let mut outcome = Feas::Blocked(Vec::new());
    let start = Instant::now();
    for _ in 0..times {
        outcome = feasible(&net);
    }
    let seconds = start.elapsed().as_secs_f64();
    println!("{}", said(&outcome));
    println!("seconds {seconds:.6}");
    Ok(())
}
