//! Safe Rust over `libmcf.a`. The library's exports have no conditions on their arguments beyond
//! the types of this crate, so each of these calls is safe with any arguments.

mod raw;

pub use raw::{Arc, Choice, Decimal, Each, Pair, PairOptions, PlanOptions, Shipment};

/// The kind of an answer.
#[derive(Clone, Copy, Debug, PartialEq, Eq)]
pub enum Kind {
    Flow,
    Blocked,
    Refused,
}

/// Why there is no answer.
#[derive(Clone, Copy, Debug, PartialEq, Eq)]
pub enum Error {
    NoMemory,
    /// A number of the choice has no meaning, or a penalty is no number.
    InvalidChoice,
    /// A price of the flow doesn't fit 64 bits.
    PriceOverflow,
    /// The search in a cost matrix found no answer that the judge accepts.
    NotShown,
}

/// The side by which a node set blocks.
#[derive(Clone, Copy, Debug, PartialEq, Eq)]
pub enum Side {
    Send,
    Take,
}

/// The answer to arrays.
#[derive(Clone, Debug, PartialEq, Eq)]
pub enum Answer {
    /// A least-cost flow by arc, its cost, and prices by node that show it.
    Flow { cost: i128, flow: Vec<i64>, prices: Vec<i64> },
    /// Nodes, from 1, that must send or take more than they can.
    Blocked { side: Side, nodes: Vec<usize> },
    /// The first fault: its code in `mcf.h`, and the node or arc, from 1, or 0.
    Refused { code: u32, place: u64 },
}

/// The answer to a cost matrix.
#[derive(Clone, Debug, PartialEq, Eq)]
pub enum Assigned {
    /// The column of each row that has one, and prices of rows and columns which show that the
    /// assignment has least cost.
    Least { column_of: Vec<Option<usize>>, row_prices: Vec<i64>, column_prices: Vec<i64> },
    /// Rows and columns that cover all allowed pairs and are fewer than the smaller side has.
    Infeasible { rows: Vec<usize>, columns: Vec<usize> },
    /// The number of costs isn't rows times columns, or a cost is beyond the limit.
    Refused,
}

/// The answer to a transport problem.
#[derive(Clone, Debug, PartialEq, Eq)]
pub enum Planned {
    /// What goes from which row to which column, and prices of rows and columns which show that the
    /// plan has least cost.
    Least { plan: Vec<Shipment>, row_prices: Vec<i64>, column_prices: Vec<i64> },
    /// Rows that supply more than the columns demand that they may send to; or, by `Take`, columns
    /// that demand more than the rows supply that may send to them.
    Infeasible { side: Side, rows: Vec<usize>, columns: Vec<usize> },
    /// The number of costs isn't rows times columns, or a cost is beyond the limit.
    Refused,
}

/// The answer to a matrix of doubles.
#[derive(Clone, Debug, PartialEq, Eq)]
pub enum AssignedDoubles {
    /// The column of each row that has one, and prices of rows and columns, in units of
    /// 2^(unit - 1074), which show that the exact sum is least. If `is_rounded`, which comes only if
    /// the bits of finite costs span more than 118, they show that of the costs rounded down to
    /// units: the exact sum is then above the least by less than one unit a pair.
    Least { column_of: Vec<Option<usize>>, row_prices: Vec<i128>, column_prices: Vec<i128>, unit: u32, is_rounded: bool },
    /// Rows and columns that cover all allowed pairs and are fewer than the smaller side has.
    Infeasible { rows: Vec<usize>, columns: Vec<usize> },
    /// The number of costs isn't rows times columns, or a cost is a NaN or -infinity.
    Refused,
}

/// The answer to a transport problem with doubles for costs.
#[derive(Clone, Debug, PartialEq, Eq)]
pub enum PlannedDoubles {
    /// What goes from which row to which column, and prices of rows and columns, in units of
    /// 2^(unit - 1074), which show that the exact sum is least. If `is_rounded`, as for assignments,
    /// it is above the least by less than one unit times the total supply, if that isn't 0.
    Least { plan: Vec<Shipment>, row_prices: Vec<i128>, column_prices: Vec<i128>, unit: u32, is_rounded: bool },
    /// Rows that supply more than the columns demand that they may send to; or, by `Take`, columns
    /// that demand more than the rows supply that may send to them.
    Infeasible { side: Side, rows: Vec<usize>, columns: Vec<usize> },
    /// The number of costs isn't rows times columns, or a cost is a NaN or -infinity.
    Refused,
}

/// A verdict in the numbers of `mcf.h`.
#[derive(Clone, Copy, Debug, PartialEq, Eq)]
pub struct Verdict {
    pub accepted: bool,
    pub kind: u32,
    pub code: u32,
    pub negative: bool,
    pub size: u128,
}

// The kind and the text of an answer that a call writes to a buffer, whose first length is given.
fn written(length: usize, call: impl Fn(&mut [u8]) -> (u32, usize)) -> Result<(Kind, Vec<u8>), Error> {
    let mut room = vec![0; length];
    loop {
        let (status, used) = call(&mut room);
        if status == raw::BUFFER_TOO_SMALL {
            room.resize(used, 0);
            continue;
        }
        room.truncate(used);
        return Ok((kind_of(status)?, room));
    }
}

/// The kind and the text of the answer to an instance text.
pub fn solve(input: &[u8], choice: Choice) -> Result<(Kind, Vec<u8>), Error> {
    written(4096 + 6 * input.len(), |room| raw::solve(input, &choice, room))
}

/// Plans the flow of a table of places and a table of routes, both in UTF-8, and returns the answer
/// as the text of a third table, which the manual page of `mcfplan` describes. Its kind is `Flow`
/// for a least-cost plan, `Blocked` if there is no plan, and `Refused` for faults of the tables.
pub fn plan_flow(places: &[u8], routes: &[u8], options: PlanOptions) -> Result<(Kind, Vec<u8>), Error> {
    let length = 4096 + 12 * (places.len() + routes.len());
    written(length, |room| raw::plan_flow(places, routes, &options, room))
}

/// Pairs persons with things by a table in UTF-8, and returns the answer as the text of another
/// table, which the manual page of `mcfplan` describes. Its kind is `Flow` for a best choice,
/// `Blocked` if there is none, and `Refused` for faults of the tables.
pub fn plan_pairs(costs: &[u8], options: PairOptions) -> Result<(Kind, Vec<u8>), Error> {
    let length = 4096 + 12 * (costs.len() + options.groups.len());
    written(length, |room| raw::plan_pairs(costs, options, room))
}

/// The verdict on an answer text for an instance text.
pub fn check(input: &[u8], answer: &[u8]) -> Result<Verdict, Error> {
    let mut told = raw::Told::default();
    let status = raw::check(input, answer, &mut told);
    verdict_of(status, told)
}

/// The answer to the flow problem of these supplies and arcs.
pub fn solve_arcs(supplies: &[i64], arcs: &[Arc], choice: Choice) -> Result<Answer, Error> {
    let (mut flow, mut prices, mut told) = (vec![0; arcs.len()], vec![0; supplies.len()], raw::Told::default());
    let status = raw::solve_arcs(supplies, arcs, &choice, &mut flow, &mut prices, &mut told);
    answer_of(status, flow, prices, told)
}

/// The answer to the flow problem of these supplies and arcs, from the flow and the prices of the
/// answer to a similar one. They may be anything, but only if they are nearly right is this faster
/// than `solve_arcs`, and only for the engines `Auto` and `Fast`.
pub fn solve_arcs_from(supplies: &[i64], arcs: &[Arc], choice: Choice, flow: Vec<i64>, prices: Vec<i64>) -> Result<Answer, Error> {
    let (mut flow, mut prices, mut told) = (flow, prices, raw::Told::default());
    flow.resize(arcs.len(), 0);
    prices.resize(supplies.len(), 0);
    let status = raw::solve_arcs_from(supplies, arcs, &choice, &mut flow, &mut prices, &mut told);
    answer_of(status, flow, prices, told)
}

/// The answer to an assignment problem with these pairs. Its nodes are the rows and then the
/// columns, and its arcs are the pairs.
pub fn solve_pairs(rows: u32, columns: u32, pairs: &[Pair], choice: Choice) -> Result<Answer, Error> {
    let nodes = rows as usize + columns as usize;
    let (mut flow, mut prices, mut told) = (vec![0; pairs.len()], vec![0; nodes], raw::Told::default());
    let status = raw::solve_pairs((rows, columns), pairs, &choice, &mut flow, &mut prices, &mut told);
    answer_of(status, flow, prices, told)
}

/// The least-cost assignment of a cost matrix that is stored row by row. Rows and columns count
/// from 0, and `i64::MAX` forbids a pair.
pub fn assign_matrix(costs: &[i64], rows: usize, columns: usize) -> Result<Assigned, Error> {
    let (mut column_of, mut row_prices, mut column_prices) = (vec![0; rows], vec![0; rows], vec![0; columns]);
    match raw::assign_matrix(costs, (rows, columns), &mut column_of, &mut row_prices, &mut column_prices) {
        0 => {
            let column_of = column_of.iter().map(|j| Some(*j as usize).filter(|j| *j < columns)).collect();
            Ok(Assigned::Least { column_of, row_prices, column_prices })
        }
        1 => Ok(Assigned::Infeasible { rows: marked(&row_prices), columns: marked(&column_prices) }),
        raw::INVALID_INPUT => Ok(Assigned::Refused),
        raw::NOT_SHOWN => Err(Error::NotShown),
        _ => Err(Error::NoMemory),
    }
}

/// The least-cost transport plan from rows with these supplies to columns with these demands. The
/// cost matrix is stored row by row. Rows and columns count from 0, and `i64::MAX` forbids a pair.
pub fn transport(costs: &[i64], supplies: &[i64], demands: &[i64]) -> Result<Planned, Error> {
    let (rows, columns) = (supplies.len(), demands.len());
    let (mut row_prices, mut column_prices) = (vec![0; rows], vec![0; columns]);
    let mut plan = vec![Shipment { row: 0, column: 0, amount: 0 }; rows + columns];
    let (status, told) = raw::transport(costs, (supplies, demands), &mut plan, &mut row_prices, &mut column_prices);
    match status {
        0 => {
            plan.truncate(told.used);
            Ok(Planned::Least { plan, row_prices, column_prices })
        }
        1 => Ok(Planned::Infeasible { side: side_of(told.side), rows: marked(&row_prices), columns: marked(&column_prices) }),
        raw::INVALID_INPUT => Ok(Planned::Refused),
        raw::NOT_SHOWN => Err(Error::NotShown),
        _ => Err(Error::NoMemory),
    }
}

/// The least-cost assignment of a matrix of doubles that is stored row by row, exactly. Rows and
/// columns count from 0, and `f64::INFINITY` forbids a pair.
pub fn assign_doubles(costs: &[f64], rows: usize, columns: usize) -> Result<AssignedDoubles, Error> {
    let (mut column_of, mut scale) = (vec![0; rows], raw::Scale::default());
    let (mut row_prices, mut column_prices) = (vec![raw::Wide::default(); rows], vec![raw::Wide::default(); columns]);
    let status = raw::assign_doubles(costs, (rows, columns), &mut column_of, &mut row_prices, &mut column_prices, &mut scale);
    match status {
        0 => {
            let column_of = column_of.iter().map(|j| Some(*j as usize).filter(|j| *j < columns)).collect();
            let (row_prices, column_prices) = (numbers(&row_prices), numbers(&column_prices));
            let (unit, is_rounded) = (scale.unit, scale.is_rounded != 0);
            Ok(AssignedDoubles::Least { column_of, row_prices, column_prices, unit, is_rounded })
        }
        1 => Ok(AssignedDoubles::Infeasible { rows: widely_marked(&row_prices), columns: widely_marked(&column_prices) }),
        raw::INVALID_INPUT => Ok(AssignedDoubles::Refused),
        raw::NOT_SHOWN => Err(Error::NotShown),
        _ => Err(Error::NoMemory),
    }
}

/// The least-cost transport plan, exactly, for a matrix of doubles that is stored row by row. Rows
/// and columns count from 0, and `f64::INFINITY` forbids a pair.
pub fn transport_doubles(costs: &[f64], supplies: &[i64], demands: &[i64]) -> Result<PlannedDoubles, Error> {
    let (rows, columns) = (supplies.len(), demands.len());
    let (mut row_prices, mut column_prices) = (vec![raw::Wide::default(); rows], vec![raw::Wide::default(); columns]);
    let mut plan = vec![Shipment { row: 0, column: 0, amount: 0 }; rows + columns];
    let (status, told) = raw::transport_doubles(costs, (supplies, demands), &mut plan, &mut row_prices, &mut column_prices);
    match status {
        0 => {
            plan.truncate(told.used);
            let (row_prices, column_prices) = (numbers(&row_prices), numbers(&column_prices));
            let (unit, is_rounded) = (told.scale.unit, told.scale.is_rounded != 0);
            Ok(PlannedDoubles::Least { plan, row_prices, column_prices, unit, is_rounded })
        }
        1 => {
            let (rows, columns) = (widely_marked(&row_prices), widely_marked(&column_prices));
            Ok(PlannedDoubles::Infeasible { side: side_of(told.side), rows, columns })
        }
        raw::INVALID_INPUT => Ok(PlannedDoubles::Refused),
        raw::NOT_SHOWN => Err(Error::NotShown),
        _ => Err(Error::NoMemory),
    }
}

fn numbers(prices: &[raw::Wide]) -> Vec<i128> {
    prices.iter().map(|price| price.number()).collect()
}

fn widely_marked(marks: &[raw::Wide]) -> Vec<usize> {
    (0..marks.len()).filter(|i| marks[*i].number() == 1).collect()
}

/// The verdict on a flow by arc, prices by node and a cost, or `None` if the arrays have a fault or
/// wrong lengths.
pub fn check_arcs(supplies: &[i64], arcs: &[Arc], flow: &[i64], prices: &[i64], cost: i128) -> Result<Option<Verdict>, Error> {
    let mut told = raw::Told::of(cost);
    match raw::check_arcs(supplies, arcs, flow, prices, &mut told) {
        raw::INVALID_INPUT | raw::BUFFER_TOO_SMALL => Ok(None),
        status => verdict_of(status, told).map(Some),
    }
}

fn side_of(side: u32) -> Side {
    if side == 0 { Side::Send } else { Side::Take }
}

fn marked(marks: &[i64]) -> Vec<usize> {
    (0..marks.len()).filter(|i| marks[*i] == 1).collect()
}

fn kind_of(status: u32) -> Result<Kind, Error> {
    match status {
        0 => Ok(Kind::Flow),
        1 => Ok(Kind::Blocked),
        raw::INVALID_INPUT => Ok(Kind::Refused),
        raw::NO_MEMORY => Err(Error::NoMemory),
        raw::PRICE_OVERFLOW => Err(Error::PriceOverflow),
        _ => Err(Error::InvalidChoice),
    }
}

fn verdict_of(status: u32, told: raw::Told) -> Result<Verdict, Error> {
    if status == raw::NO_MEMORY {
        return Err(Error::NoMemory);
    }
    Ok(Verdict { accepted: status == 0, kind: told.kind, code: told.code, negative: told.negative == 1, size: told.size() })
}

fn answer_of(status: u32, flow: Vec<i64>, prices: Vec<i64>, told: raw::Told) -> Result<Answer, Error> {
    Ok(match kind_of(status)? {
        Kind::Flow => Answer::Flow { cost: told.number(), flow, prices },
        Kind::Blocked => Answer::Blocked {
            side: side_of(told.code),
            nodes: (1..=prices.len()).filter(|v| prices[v - 1] == 1).collect(),
        },
        Kind::Refused => Answer::Refused { code: told.code, place: told.low },
    })
}
