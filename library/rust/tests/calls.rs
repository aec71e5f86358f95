use mcf::{assign_doubles, assign_matrix, check, check_arcs, plan_flow, plan_pairs, solve, solve_arcs, solve_arcs_from, solve_pairs, transport};
use mcf::{Answer, Arc, Assigned, AssignedDoubles, Choice, Decimal, Each, Error, Kind, Pair, PairOptions, PlanOptions, Planned, Shipment, Side};

const TEXT: &[u8] = b"p min 3 3\nn 1 4\nn 3 -4\na 1 2 0 3 1\na 2 3 0 3 -1\na 1 3 0 9 5\n";

const ARCS: [Arc; 3] = [
    Arc { src: 1, dst: 2, low: 0, cap: 3, cost: 1 },
    Arc { src: 2, dst: 3, low: 0, cap: 3, cost: -1 },
    Arc { src: 1, dst: 3, low: 0, cap: 9, cost: 5 },
];

fn engine(engine: u32) -> Choice {
    Choice { engine, ..Choice::default() }
}

#[test]
fn texts() {
    let (kind, answer) = solve(TEXT, Choice::default()).unwrap();
    assert_eq!(kind, Kind::Flow);
    assert!(answer.starts_with(b"s 5\n"));
    let verdict = check(TEXT, &answer).unwrap();
    assert!(verdict.accepted && verdict.kind == 0 && verdict.size == 5 && !verdict.negative);
    assert!(!check(TEXT, b"s 4\n").unwrap().accepted);
    assert_eq!(solve(b"p min 2 1\n", Choice::default()).unwrap(), (Kind::Refused, b"r 2 missing\n".to_vec()));
    assert_eq!(solve(b"p min 2 0\nn 1 1\nn 2 -1\n", Choice::default()).unwrap().0, Kind::Blocked);
    assert_eq!(solve(TEXT, engine(6)), Err(Error::InvalidChoice));
    assert_eq!(solve(b"", Choice::default()).unwrap().0, Kind::Refused);
}

#[test]
fn tables() {
    let (places, routes) = (b"name,supply\nMill,3\nTown,-3\n", b"from,to,most,cost\nMill,Town,2,1.5\n");
    assert_eq!(plan_flow(places, routes, PlanOptions::default()).unwrap().0, Kind::Blocked);
    let options = PlanOptions { unused: true, short: true, penalty: "0.5", ..PlanOptions::default() };
    let (kind, answer) = plan_flow(places, routes, options).unwrap();
    assert_eq!(kind, Kind::Flow);
    assert!(answer.starts_with(b"\"answer\",\"plan\"\n\"cost\",\"1.5\"\n"));
    let ranged = plan_flow(places, routes, PlanOptions { ranges: true, ..options }).unwrap().1;
    assert!(ranged.starts_with(&answer) && ranged.ends_with(b"\"range\",\"2\",\"Mill\",\"Town\",\"1\",\"\"\n"));
    assert_eq!(plan_flow(places, places, options).unwrap().0, Kind::Refused);
    let comma = PlanOptions { decimal: Decimal::Comma, ..options };
    assert_eq!(plan_flow(places, routes, comma), Err(Error::InvalidChoice));
}

#[test]
fn rosters() {
    let costs = b",X,Y\nA,1,2.5\nB,3,3.5\n";
    let (kind, answer) = plan_pairs(costs, PairOptions::default()).unwrap();
    assert_eq!(kind, Kind::Flow);
    assert!(answer.starts_with(b"\"answer\",\"plan\"\n\"cost\",\"4.5\"\n"));
    let values = PairOptions { each: Each::Both, maximise: true, ..PairOptions::default() };
    let (kind, answer) = plan_pairs(costs, values).unwrap();
    assert_eq!(kind, Kind::Flow);
    assert!(answer.starts_with(b"\"answer\",\"plan\"\n\"cost\",\"5.5\"\n"));
    let narrow = b"who,what,cost\nA,X,1\nB,X,1\n";
    assert_eq!(plan_pairs(narrow, PairOptions::default()).unwrap().0, Kind::Blocked);
    let groups = PairOptions { groups: b"group,what,most\nboth,X,0\nboth,Y,", ..PairOptions::default() };
    assert_eq!(plan_pairs(costs, groups).unwrap().0, Kind::Blocked);
    assert_eq!(plan_pairs(narrow, PairOptions { each: Each::What, ..PairOptions::default() }).unwrap().0, Kind::Flow);
    assert_eq!(plan_pairs(costs, PairOptions { decimal: Decimal::Comma, ..values }).unwrap().0, Kind::Refused);
}

#[test]
fn arrays() {
    for number in 0..6 {
        let Ok(Answer::Flow { cost, flow, prices }) = solve_arcs(&[4, 0, -4], &ARCS, engine(number)) else { panic!() };
        assert_eq!((cost, &flow[..]), (5, &[3, 3, 1][..]));
        assert!(check_arcs(&[4, 0, -4], &ARCS, &flow, &prices, 5).unwrap().unwrap().accepted);
        let more = solve_arcs_from(&[5, 0, -5], &ARCS, engine(number), flow.clone(), prices.clone());
        assert!(matches!(more, Ok(Answer::Flow { cost: 10, flow, .. }) if flow == [3, 3, 2]));
        assert_eq!(solve_arcs_from(&[4, 0, -4], &ARCS, engine(number), vec![], vec![]), Ok(Answer::Flow { cost, flow: flow.clone(), prices: prices.clone() }));
        assert!(!check_arcs(&[4, 0, -4], &ARCS, &flow, &prices, 6).unwrap().unwrap().accepted);
        assert_eq!(check_arcs(&[4, 0, -4], &ARCS, &flow, &prices[1..], 5), Ok(None));
    }
    let blocked = solve_arcs(&[0, 1, -1], &ARCS[..1], Choice::default()).unwrap();
    assert!(matches!(blocked, Answer::Blocked { side: Side::Send | Side::Take, nodes } if !nodes.is_empty()));
    assert_eq!(solve_arcs(&[4], &ARCS, Choice::default()), Ok(Answer::Refused { code: 8, place: 1 }));
    assert!(matches!(solve_arcs(&[], &[], Choice::default()), Ok(Answer::Flow { cost: 0, .. })));
}

#[test]
fn assignments() {
    let pairs = [(1, 1, 4), (1, 2, 1), (2, 1, 2), (2, 2, -3)].map(|(row, column, cost)| Pair { row, column, cost });
    let Ok(Answer::Flow { cost, flow, .. }) = solve_pairs(2, 2, &pairs, Choice::default()) else { panic!() };
    assert_eq!((cost, &flow[..]), (1, &[1, 0, 0, 1][..]));
}

#[test]
fn doubles() {
    let last = f64::EPSILON;
    let Ok(AssignedDoubles::Least { column_of, .. }) = assign_doubles(&[1.0, 1.0 + 2.0 * last, 1.0, 1.0 + last], 2, 2) else { panic!() };
    assert_eq!(column_of, [Some(0), Some(1)]);
    let none = assign_doubles(&[f64::INFINITY, 1.0, f64::INFINITY, 1.0], 2, 2);
    assert_eq!(none, Ok(AssignedDoubles::Infeasible { rows: vec![], columns: vec![1] }));
    assert_eq!(assign_doubles(&[f64::NAN], 1, 1), Ok(AssignedDoubles::Refused));
    let far = assign_doubles(&[1.0, 1e-300], 1, 2);
    assert!(matches!(far, Ok(AssignedDoubles::Least { column_of, is_rounded: true, .. }) if column_of == [Some(1)]));
}

#[test]
fn matrices() {
    let Ok(Assigned::Least { column_of, .. }) = assign_matrix(&[4, 1, 3, 2, 0, 5], 2, 3) else { panic!() };
    assert_eq!(column_of, [Some(1), Some(0)]);
    let none = assign_matrix(&[i64::MAX, 1, i64::MAX, 1], 2, 2);
    assert_eq!(none, Ok(Assigned::Infeasible { rows: vec![], columns: vec![1] }));
    assert_eq!(assign_matrix(&[1], 1, 2), Ok(Assigned::Refused));
}

#[test]
fn plans() {
    let Ok(Planned::Least { mut plan, .. }) = transport(&[1, 2, 3, 1], &[3, 4], &[5, 2]) else { panic!() };
    plan.sort_by_key(|entry| (entry.row, entry.column));
    let triples: Vec<_> = plan.iter().map(|entry| (entry.row, entry.column, entry.amount)).collect();
    assert_eq!(triples, [(0, 0, 3), (1, 0, 2), (1, 1, 2)]);
    let none = transport(&[1, i64::MAX, 1, i64::MAX], &[3, 4], &[5, 2]);
    assert_eq!(none, Ok(Planned::Infeasible { side: Side::Send, rows: vec![0, 1], columns: vec![0] }));
    let few = transport(&[1], &[5], &[6]);
    assert_eq!(few, Ok(Planned::Infeasible { side: Side::Take, rows: vec![0], columns: vec![0] }));
    assert_eq!(transport(&[1], &[1], &[1, 0]), Ok(Planned::Refused));
    assert_eq!(transport(&[7], &[2], &[2]).map(|planned| matches!(planned, Planned::Least { plan, .. } if plan == [Shipment { row: 0, column: 0, amount: 2 }])), Ok(true));
}

#[test]
fn threads_at_once() {
    std::thread::scope(|scope| {
        for number in 0..6 {
            scope.spawn(move || {
                for _ in 0..1000 {
                    assert_eq!(solve(TEXT, engine(number)).unwrap().0, Kind::Flow);
                }
            });
        }
    });
}
