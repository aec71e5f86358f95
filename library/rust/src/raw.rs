//! The exports that `mcf.h` declares. Each has a function here that passes it valid pointers.

pub const INVALID_INPUT: u32 = 2;
pub const NO_MEMORY: u32 = 3;
pub const BUFFER_TOO_SMALL: u32 = 4;
pub const PRICE_OVERFLOW: u32 = 6;
pub const NOT_SHOWN: u32 = 7;

/// How to solve an instance and which form the answer has, in the numbers of `mcf.h`. All zeros are
/// the defaults.
#[repr(C)]
#[derive(Clone, Copy, Debug, Default)]
pub struct Choice {
    pub engine: u32,
    pub pricing: u32,
    pub block: u32,
    pub form: u32,
    pub check: u32,
}

/// The mark before decimals: the one that the tables show, a point, or a comma.
#[derive(Clone, Copy, Debug, Default, PartialEq, Eq)]
pub enum Decimal {
    #[default]
    Shown = 0,
    Point = 1,
    Comma = 2,
}

/// How tables are read, what plans may leave, and whether ranges are told.
#[derive(Clone, Copy, Debug, Default)]
pub struct PlanOptions<'a> {
    pub decimal: Decimal,
    /// Supplies may stay where they are.
    pub unused: bool,
    /// Demands may be missing.
    pub short: bool,
    /// From what to what the cost of each route may change while a plan stays least, by two searches
    /// a route.
    pub ranges: bool,
    /// The cost of each missing unit, with a point before decimals unless `decimal` is a comma. If
    /// it is empty, as little as possible is missing.
    pub penalty: &'a str,
    /// The heads of columns in which an empty cell takes the one above, one a line.
    pub fill_down: &'a str,
}

/// The same in numbers, as `mcf.h` has it.
#[repr(C)]
pub struct PlanNumbers {
    decimal: u32,
    allow_unused: u32,
    allow_short: u32,
    ranges: u32,
    penalty: *const u8,
    penalty_length: usize,
    fill_down: *const u8,
    fill_down_length: usize,
}

/// Who gets just one, where no cell says how many: each thing, if a cell of the table says it, and
/// otherwise each person; each person; each thing; or both.
#[derive(Clone, Copy, Debug, Default, PartialEq, Eq)]
pub enum Each {
    #[default]
    Auto = 0,
    Who = 1,
    What = 2,
    Both = 3,
}

/// How a table of persons and things is read, which choice is the best, and a table of groups.
#[derive(Clone, Copy, Debug, Default)]
pub struct PairOptions<'t> {
    pub decimal: Decimal,
    pub each: Each,
    /// Costs are values, and a choice is worth as much as possible.
    pub maximise: bool,
    /// Groups that cross an earlier one are left out and checked; otherwise they are faults.
    pub check_crossing: bool,
    /// The text of a table of groups, in UTF-8; if it is empty, there are none.
    pub groups: &'t [u8],
    /// The heads of columns in which an empty cell takes the one above, one a line.
    pub fill_down: &'t str,
}

/// The same in numbers, as `mcf.h` has it.
#[repr(C)]
pub struct PairNumbers {
    decimal: u32,
    each: u32,
    maximise: u32,
    crossing: u32,
    groups: *const u8,
    groups_length: usize,
    fill_down: *const u8,
    fill_down_length: usize,
}

/// An arc, with nodes from 1.
#[repr(C)]
#[derive(Clone, Copy, Debug)]
pub struct Arc {
    pub src: u32,
    pub dst: u32,
    pub low: i64,
    pub cap: i64,
    pub cost: i64,
}

/// An allowed pair, with rows and columns from 1.
#[repr(C)]
#[derive(Clone, Copy, Debug)]
pub struct Pair {
    pub row: u32,
    pub column: u32,
    pub cost: i64,
}

#[repr(C)]
#[derive(Clone, Copy, Debug, Default)]
pub struct Told {
    pub kind: u32,
    pub code: u32,
    pub negative: u32,
    pub low: u64,
    pub high: u64,
}

impl Told {
    pub fn of(cost: i128) -> Told {
        let size = cost.unsigned_abs();
        Told { kind: 0, code: 0, negative: u32::from(cost < 0), low: size as u64, high: (size >> 64) as u64 }
    }

    pub fn size(self) -> u128 {
        u128::from(self.low) + (u128::from(self.high) << 64)
    }

    pub fn number(self) -> i128 {
        let size = self.size() as i128;
        if self.negative == 1 { -size } else { size }
    }
}

/// A flow problem, as `mcf.h` has it.
#[repr(C)]
struct FlowProblem {
    supplies: *const i64,
    nodes: usize,
    arcs: *const Arc,
    arc_count: usize,
}

impl FlowProblem {
    fn of(supplies: &[i64], arcs: &[Arc]) -> FlowProblem {
        FlowProblem { supplies: supplies.as_ptr(), nodes: supplies.len(), arcs: arcs.as_ptr(), arc_count: arcs.len() }
    }
}

/// An assignment problem, as `mcf.h` has it.
#[repr(C)]
struct Assignment {
    rows: u32,
    columns: u32,
    pairs: *const Pair,
    pair_count: usize,
}

/// A cost matrix, as `mcf.h` has it.
#[repr(C)]
struct Matrix {
    costs: *const i64,
    length: usize,
    rows: usize,
    columns: usize,
    stride: usize,
}

/// A transport problem, as `mcf.h` has it.
#[repr(C)]
struct Transport {
    matrix: Matrix,
    supplies: *const i64,
    supply_count: usize,
    demands: *const i64,
    demand_count: usize,
}

/// An entry of a transport plan: so much goes from this row to this column, both from 0.
#[repr(C)]
#[derive(Clone, Copy, Debug, PartialEq, Eq)]
pub struct Shipment {
    pub row: u32,
    pub column: u32,
    pub amount: i64,
}

#[repr(C)]
#[derive(Clone, Copy, Debug, Default)]
pub struct Planned {
    pub used: usize,
    pub side: u32,
}

/// The scale of prices, as `mcf.h` has it.
#[repr(C)]
#[derive(Clone, Copy, Debug, Default)]
pub struct Scale {
    pub unit: u32,
    pub is_rounded: u32,
}

/// A matrix of doubles, as `mcf.h` has it.
#[repr(C)]
struct Doubles {
    costs: *const f64,
    length: usize,
    rows: usize,
    columns: usize,
    stride: usize,
}

/// A transport problem with doubles for costs, as `mcf.h` has it.
#[repr(C)]
struct TransportDoubles {
    matrix: Doubles,
    supplies: *const i64,
    supply_count: usize,
    demands: *const i64,
    demand_count: usize,
}

#[repr(C)]
#[derive(Clone, Copy, Debug, Default)]
pub struct PlannedDoubles {
    pub used: usize,
    pub side: u32,
    pub scale: Scale,
}

/// A whole number in two words.
#[repr(C)]
#[derive(Clone, Copy, Default)]
pub struct Wide {
    low: u64,
    high: i64,
}

impl Wide {
    pub fn number(self) -> i128 {
        (i128::from(self.high) << 64) + i128::from(self.low)
    }
}

mod exports {
    use super::{
        Assignment, Choice, Doubles, FlowProblem, Matrix, PairNumbers, PlanNumbers, Planned, PlannedDoubles, Scale, Shipment, Told, Transport, TransportDoubles, Wide,
    };

    #[rustfmt::skip]
    unsafe extern "C" {
        pub fn mcf_solve(input: *const u8, input_length: usize, choice: *const Choice, room: *mut u8, room_length: usize, used: *mut usize) -> u32;
        pub fn mcf_plan_flow(places: *const u8, places_length: usize, routes: *const u8, routes_length: usize,
            options: *const PlanNumbers, room: *mut u8, room_length: usize, used: *mut usize) -> u32;
        pub fn mcf_plan_pairs(costs: *const u8, costs_length: usize,
            options: *const PairNumbers, room: *mut u8, room_length: usize, used: *mut usize) -> u32;
        pub fn mcf_check(input: *const u8, input_length: usize, answer: *const u8, answer_length: usize, told: *mut Told) -> u32;
        pub fn mcf_solve_arcs(problem: *const FlowProblem, choice: *const Choice,
            flow: *mut i64, flow_length: usize, prices: *mut i64, prices_length: usize, told: *mut Told) -> u32;
        pub fn mcf_solve_arcs_from(problem: *const FlowProblem, choice: *const Choice,
            flow: *mut i64, flow_length: usize, prices: *mut i64, prices_length: usize, told: *mut Told) -> u32;
        pub fn mcf_check_arcs(problem: *const FlowProblem,
            flow: *const i64, flow_length: usize, prices: *const i64, prices_length: usize, told: *mut Told) -> u32;
        pub fn mcf_solve_pairs(problem: *const Assignment, choice: *const Choice,
            flow: *mut i64, flow_length: usize, prices: *mut i64, prices_length: usize, told: *mut Told) -> u32;
        pub fn mcf_assign_matrix(matrix: *const Matrix, column_of: *mut u32, column_of_length: usize,
            row_prices: *mut i64, row_prices_length: usize, column_prices: *mut i64, column_prices_length: usize) -> u32;
        pub fn mcf_transport_matrix(problem: *const Transport, plan: *mut Shipment, plan_length: usize,
            row_prices: *mut i64, row_prices_length: usize, column_prices: *mut i64, column_prices_length: usize, told: *mut Planned) -> u32;
        pub fn mcf_assign_doubles(matrix: *const Doubles, column_of: *mut u32, column_of_length: usize,
            row_prices: *mut Wide, row_prices_length: usize, column_prices: *mut Wide, column_prices_length: usize, scale: *mut Scale) -> u32;
        pub fn mcf_transport_doubles(problem: *const TransportDoubles, plan: *mut Shipment, plan_length: usize,
            row_prices: *mut Wide, row_prices_length: usize, column_prices: *mut Wide, column_prices_length: usize, told: *mut PlannedDoubles) -> u32;
    }
}

// SAFETY of each call below: the declarations are those of `mcf.h`. The pointers and lengths are
// those of slices and references that live through the call. Memory that the call writes overlaps
// no other argument.

pub fn solve(input: &[u8], choice: &Choice, room: &mut [u8]) -> (u32, usize) {
    let mut used = 0;
    let status = unsafe { exports::mcf_solve(input.as_ptr(), input.len(), choice, room.as_mut_ptr(), room.len(), &mut used) };
    (status, used)
}

pub fn plan_flow(places: &[u8], routes: &[u8], options: &PlanOptions, room: &mut [u8]) -> (u32, usize) {
    let numbers = PlanNumbers {
        decimal: options.decimal as u32,
        allow_unused: options.unused.into(),
        allow_short: options.short.into(),
        ranges: options.ranges.into(),
        penalty: options.penalty.as_ptr(),
        penalty_length: options.penalty.len(),
        fill_down: options.fill_down.as_ptr(),
        fill_down_length: options.fill_down.len(),
    };
    let mut used = 0;
    let (room_at, room_length) = (room.as_mut_ptr(), room.len());
    let status = unsafe {
        exports::mcf_plan_flow(places.as_ptr(), places.len(), routes.as_ptr(), routes.len(), &numbers, room_at, room_length, &mut used)
    };
    (status, used)
}

pub fn plan_pairs(costs: &[u8], options: PairOptions, room: &mut [u8]) -> (u32, usize) {
    let numbers = PairNumbers {
        decimal: options.decimal as u32,
        each: options.each as u32,
        maximise: options.maximise.into(),
        crossing: options.check_crossing.into(),
        groups: options.groups.as_ptr(),
        groups_length: options.groups.len(),
        fill_down: options.fill_down.as_ptr(),
        fill_down_length: options.fill_down.len(),
    };
    let mut used = 0;
    let status = unsafe { exports::mcf_plan_pairs(costs.as_ptr(), costs.len(), &numbers, room.as_mut_ptr(), room.len(), &mut used) };
    (status, used)
}

pub fn check(input: &[u8], answer: &[u8], told: &mut Told) -> u32 {
    unsafe { exports::mcf_check(input.as_ptr(), input.len(), answer.as_ptr(), answer.len(), told) }
}

pub fn solve_arcs(supplies: &[i64], arcs: &[Arc], choice: &Choice, flow: &mut [i64], prices: &mut [i64], told: &mut Told) -> u32 {
    let problem = FlowProblem::of(supplies, arcs);
    unsafe { exports::mcf_solve_arcs(&problem, choice, flow.as_mut_ptr(), flow.len(), prices.as_mut_ptr(), prices.len(), told) }
}

pub fn solve_arcs_from(supplies: &[i64], arcs: &[Arc], choice: &Choice, flow: &mut [i64], prices: &mut [i64], told: &mut Told) -> u32 {
    let problem = FlowProblem::of(supplies, arcs);
    unsafe { exports::mcf_solve_arcs_from(&problem, choice, flow.as_mut_ptr(), flow.len(), prices.as_mut_ptr(), prices.len(), told) }
}

pub fn check_arcs(supplies: &[i64], arcs: &[Arc], flow: &[i64], prices: &[i64], told: &mut Told) -> u32 {
    let problem = FlowProblem::of(supplies, arcs);
    unsafe { exports::mcf_check_arcs(&problem, flow.as_ptr(), flow.len(), prices.as_ptr(), prices.len(), told) }
}

pub fn solve_pairs(sides: (u32, u32), pairs: &[Pair], choice: &Choice, flow: &mut [i64], prices: &mut [i64], told: &mut Told) -> u32 {
    let problem = Assignment { rows: sides.0, columns: sides.1, pairs: pairs.as_ptr(), pair_count: pairs.len() };
    unsafe { exports::mcf_solve_pairs(&problem, choice, flow.as_mut_ptr(), flow.len(), prices.as_mut_ptr(), prices.len(), told) }
}

pub fn assign_matrix(costs: &[i64], sides: (usize, usize), column_of: &mut [u32], row_prices: &mut [i64], column_prices: &mut [i64]) -> u32 {
    let matrix = Matrix { costs: costs.as_ptr(), length: costs.len(), rows: sides.0, columns: sides.1, stride: sides.1 };
    unsafe {
        exports::mcf_assign_matrix(&matrix, column_of.as_mut_ptr(), column_of.len(),
            row_prices.as_mut_ptr(), row_prices.len(), column_prices.as_mut_ptr(), column_prices.len())
    }
}

pub fn transport(costs: &[i64], masses: (&[i64], &[i64]), plan: &mut [Shipment], row_prices: &mut [i64], column_prices: &mut [i64]) -> (u32, Planned) {
    let (supplies, demands) = masses;
    let matrix = Matrix { costs: costs.as_ptr(), length: costs.len(), rows: supplies.len(), columns: demands.len(), stride: demands.len() };
    let problem = Transport {
        matrix, supplies: supplies.as_ptr(), supply_count: supplies.len(), demands: demands.as_ptr(), demand_count: demands.len(),
    };
    let mut told = Planned::default();
    let status = unsafe {
        exports::mcf_transport_matrix(&problem, plan.as_mut_ptr(), plan.len(),
            row_prices.as_mut_ptr(), row_prices.len(), column_prices.as_mut_ptr(), column_prices.len(), &mut told)
    };
    (status, told)
}

pub fn assign_doubles(
    costs: &[f64], sides: (usize, usize), column_of: &mut [u32], row_prices: &mut [Wide], column_prices: &mut [Wide], scale: &mut Scale,
) -> u32 {
    let matrix = Doubles { costs: costs.as_ptr(), length: costs.len(), rows: sides.0, columns: sides.1, stride: sides.1 };
    unsafe {
        exports::mcf_assign_doubles(&matrix, column_of.as_mut_ptr(), column_of.len(),
            row_prices.as_mut_ptr(), row_prices.len(), column_prices.as_mut_ptr(), column_prices.len(), scale)
    }
}

pub fn transport_doubles(
    costs: &[f64], masses: (&[i64], &[i64]), plan: &mut [Shipment], row_prices: &mut [Wide], column_prices: &mut [Wide],
) -> (u32, PlannedDoubles) {
    let (supplies, demands) = masses;
    let matrix = Doubles { costs: costs.as_ptr(), length: costs.len(), rows: supplies.len(), columns: demands.len(), stride: demands.len() };
    let problem = TransportDoubles {
        matrix, supplies: supplies.as_ptr(), supply_count: supplies.len(), demands: demands.as_ptr(), demand_count: demands.len(),
    };
    let mut told = PlannedDoubles::default();
    let status = unsafe {
        exports::mcf_transport_doubles(&problem, plan.as_mut_ptr(), plan.len(),
            row_prices.as_mut_ptr(), row_prices.len(), column_prices.as_mut_ptr(), column_prices.len(), &mut told)
    };
    (status, told)
}
