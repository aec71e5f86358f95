// @ts-check
// This file turns an answer into what the page shows: a headline, lead sentences, facts, findings,
// scenes, and tables to look at and to save.
import { balanceOf } from './blocked.js';
import { column, number, ownColumns, sheetOf } from './columns.js';
import { flowSide, pairsSide } from './compare.js';
import { pairsSummary, pairsTable, rivalsLines, rivalsSentence, rivalsTable } from './pairs.js';
import {
  besideLines,
  bottleneckSentence,
  countsOfProblem,
  bottleneckTable,
  flowsTable,
  pricesTable,
  rangeCells,
  roomCells,
  savingsOf,
  slips,
  stockTables,
  supplyCells,
} from './report.js';
import { listed } from './faults.js';
import { groupSheets, groupsTables } from './groups.js';
import { size } from './model.js';
import { cellAt } from './tables.js';
import { isQuiet, labelIn } from './periods.js';
import { blockedScene, planScenes, whyBlocked } from './scene.js';
import { flowSumsTable, flowViews, pairSumsTable, pairViews } from './sums.js';
import { grouped } from './view.js';

/**
 * @typedef {import('./blocked.js').Blocked} Blocked
 * @typedef {import('./model.js').Problem} Problem
 * @typedef {import('./network.js').Network<Arc>} Network
 * @typedef {import('./pairs.js').Roster} Roster
 * @typedef {import('./plan.js').FlowPlan} FlowPlan
 * @typedef {import('./tables.js').Table} Table
 */

/** @type {(table: Table) => Column[]} */
const ownOf = (table) => ownColumns(table).map((place) => column(table.titles[place]));

/** @type {(plan: FlowPlan) => Shown} */
export function planShown(plan) {
  const { problem } = plan;
  const { units, said } = problem;
  const carrying = plan.routes.filter((result) => result.carries).length;
  const full = plan.routes.filter((_, k) => plan.isFull(k)).length;
  const views = flowViews(plan);
  /** @type {Shown['facts']} */
  const facts = [
    ...countsOfProblem(problem).map(([count, , many]) =>
      /** @type {[number, string]} */ ([count, many])
    ),
    [carrying, 'carry something'],
    [full, 'are full'],
  ];
  for (const isSupply of [true, false]) {
    const unmet = plan.unmet(isSupply).reduce((sum, [, amount]) => sum + amount, 0n);
    if (unmet) facts.push([units.amount(unmet), isSupply ? 'stay' : 'are missing', true]);
  }
  return {
    isPlan: true,
    headline: ({ currency }) =>
      `Least cost: ${grouped(units.total(plan.cost), said.mark, currency)}`,
    mark: said.mark,
    lead: () => [
      ...warnings(problem, plan.policy),
      'No plan for these tables costs less.',
      ...besideLines(plan),
      ...problem.told(plan.policy, [views.columns[views.chosen]]),
      ...(plan.hasRanges ? [RANGES] : []),
    ],
    facts,
    findings: [],
    scenes: (caption) => planScenes(plan, caption),
    side: () => flowSide(plan),
    sheets: [
      ...savingsSheet(plan), routesSheet(plan), placesSheet(plan), ...stockSheet(plan),
      { ...views.sheet(0), views },
    ],
    tables: () => [
      flowsTable(plan), pricesTable(plan), ...stockTables(plan),
      flowSumsTable(plan, [views.columns[views.chosen]]),
    ],
  };
}

/** @type {(problem: Problem, policy: Policy) => string[]} */
const warnings = (problem, policy) => slips(problem, policy).map((line) => `Warning: ${line}`);

/** @type {(plan: FlowPlan) => Sheet[]} */
function savingsSheet(plan) {
  const { units } = plan.problem;
  /** @type {SheetRow[]} */
  const rows = savingsOf(plan)
    .slice(0, 50)
    .map(({ ends, result }) => ({
      kind: 'full',
      cells: [...ends, result.isExact ? 'exactly' : 'at most', units.rate(result.saves)],
    }));
  return rows.length
    ? [
      sheetOf(
        'What one more unit of room saves',
        [
          column('from'),
          column('to'),
          column('exact', 'whether it saves just that'),
          number('one more unit saves'),
        ],
        rows
      ),
    ]
    : [];
}

// This function says whether each row of the tables is one of the sheets, and no route has costs
// that rise by steps.
/** @type {(problem: Problem) => boolean} */
const isPlain = ({ routes, periods }) =>
  !periods.length && routes.every(({ steps }) => steps.length === 1);

// This function makes a column of the routes editable if the table has it and no route has steps.
/** @type {(problem: Problem, head: string) => Partial<Column>} */
const may = (problem, head) =>
  isPlain(problem) && problem.routeTable.heads.includes(head) ? { edit: head, of: true } : {};

// What the ranges of costs say, and their columns.
const RANGES = 'The plan stays least while the cost of one route, of the first step if it has '
  + 'several, is within its range, and all other costs stay as they are.';
const RANGE_COLUMNS = ['cost may fall to', 'cost may rise to'].map((head) =>
  number(head, 'while this plan stays least; empty: no limit')
);

const ROOM_COLUMN = number('saves for', 'so many units of room more; empty: no limit');

/** @type {(plan: FlowPlan) => Column[]} */
const routeColumns = ({ problem, hasRanges }) => [
  ...(problem.periods.length ? [column('departs in'), column('arrives in')] : []),
  column('from', 'where the route begins'),
  column('to', 'where it ends'),
  number('least', 'it carries no less', may(problem, 'least')),
  number('most', 'it carries no more; empty: no limit', may(problem, 'most')),
  number('cost', 'of each unit', may(problem, 'cost')),
  number('carries', 'in this plan'),
  number('total', 'cost of what it carries'),
  number('of its room', 'what it carries of its most', { share: true }),
  number('one more saves', 'what one more unit of room saves'),
  column('exact', 'whether it saves just that'),
  number('one more carried costs', 'at least, if it has to carry one more; empty: full'),
  ...(hasRanges ? [...RANGE_COLUMNS, ROOM_COLUMN] : []),
  ...ownOf(problem.routeTable),
];

/** @type {(plan: FlowPlan) => Sheet} */
function routesSheet(plan) {
  const { problem } = plan;
  const { units, routeTable } = problem;
  const own = ownColumns(routeTable);
  const plain = isPlain(problem);
  const columns = routeColumns(plan);
  /** @type {Sheet['row']} */
  const row = (k) => {
    const route = problem.routes[k], { carries, cost, saves, isExact, dearer } = plan.routes[k];
    const share = route.most
      ? String(Math.round(100 * Number(size(carries)) / Number(size(route.most))))
      : '';
    return {
      kind: plan.isFull(k) ? 'full' : carries ? '' : 'idle',
      cells: [
        ...(problem.periods.length ? [route.departs, route.arrives] : []),
        ...[route.tail, route.head].map((end) => problem.places[end - 1].name),
        units.amount(route.least),
        units.amount(route.most),
        costsCell(problem, route),
        units.amount(carries),
        units.total(cost),
        share,
        saves ? units.rate(saves) : '',
        saves ? (isExact ? 'exactly' : 'at most') : '',
        units.rate(dearer),
        ...rangeCells(plan, plan.ranges[k]),
        ...roomCells(plan, plan.routes[k], plan.rooms[k]),
        ...own.map((place) => cellAt(route.cells, place)),
      ],
    };
  };
  const total = units.total(plan.routes.reduce((sum, { cost }) => sum + (cost || 0n), 0n));
  const totals = columns.map(({ head }) => (head === 'total' ? total : ''));
  return {
    title: 'Routes',
    columns,
    count: problem.routes.length,
    row,
    hasIdle: plan.routes.some(({ carries }) => !carries),
    totals,
    from: routeTable,
    field: 'routes',
    note: plain ? 'If you change least, most or cost, the page makes a new plan.' : '',
  };
}

// This function returns the cost of each unit of a route. If it rises by steps, it lists all steps
// as sentences do.
/** @type {(problem: Problem, route: Route) => string} */
function costsCell({ units, said }, { steps }) {
  return steps.length === 1
    ? units.rate(steps[0].cost)
    : steps.map((step) => said.rate(step.cost)).join(' / ');
}

// The columns about what passes through places with bounds.
const PASSING = [
  number('passes', 'what comes in and what is sent there'),
  number('passes at most', 'empty: no limit'),
  number('passing costs', 'in this plan'),
  number('one more saves', 'what one more unit of room saves'),
  number('one more passing costs', 'at least, if one more has to pass; empty: full'),
];

// What the column of first stock says.
const FIRST_KEPT = 'there before the first period, and kept for it';

// This function makes the column of supplies editable, unless there are periods.
/** @type {(table: Table) => Partial<Column>} */
const supplyOf = (table) => (table.heads.includes('period') ? {} : { edit: 'supply' });

const SUPPLY_COLUMNS = [
  number('more costs', 'each further unit that it sends or wants'),
  number('for units', 'so many further units cost that; empty: no limit'),
];

/**
 * @typedef {object} PlaceParts which columns the places have
 * @property {boolean} hasSupplies
 * @property {boolean} hasUnmet
 * @property {boolean} hasPenalties
 * @property {boolean} hasBounds
 * @property {boolean} hasRanges
 */

/** @type {(table: Table, parts: PlaceParts) => Column[]} */
const placeColumns = (table, { hasSupplies, hasUnmet, hasPenalties, hasBounds, hasRanges }) => [
  ...(table.heads.includes('period') ? [column('period')] : []),
  column('name'),
  number('supply', 'above 0 it sends, below 0 it takes', supplyOf(table)),
  number('one more costs', 'what one more unit costs there'),
  number('group', 'among places of one group that is exact'),
  ...(hasSupplies ? SUPPLY_COLUMNS : []),
  ...(hasUnmet ? [number('unmet', 'what stays, or is missing')] : []),
  ...(hasPenalties ? [number('penalty', 'of each unit that is missing')] : []),
  ...(hasBounds ? PASSING : []),
  ...(hasBounds && hasRanges ? [ROOM_COLUMN] : []),
  ...ownOf(table),
];

// This function returns the numbers from 0 of the places of which a sheet tells: where there is no
// first or last stock, it tells nothing of it.
/** @type {(problem: Problem) => number[]} */
const toldPlaces = ({ places }) => places.map((_, k) => k).filter((k) => !isQuiet(places[k]));

/** @type {(plan: FlowPlan) => Sheet} */
function placesSheet(plan) {
  const { problem, hasSupplies, hasRanges } = plan;
  const { units, placeTable } = problem;
  const own = ownColumns(placeTable);
  const hasBounds = problem.places.some(({ bounds }) => bounds);
  const hasUnmet = Boolean(plan.policy.unused || plan.policy.short);
  const hasPenalties = problem.places.some(({ penalty }) => penalty !== null);
  const told = toldPlaces(problem);
  /** @type {Sheet['row']} */
  const row = (number) => {
    const k = told[number], place = problem.places[k];
    const { price, group, unmet, through } = plan.places[k];
    const passing = through ? [
      units.amount(through.carries), units.amount(place.bounds.most), units.total(through.cost),
      through.saves ? units.rate(through.saves) : '',
      units.rate(through.dearer),
    ] : PASSING.map(() => '');
    return {
      kind: '',
      cells: [
        ...(place.period ? [place.period] : []),
        place.name,
        units.amount(place.supply),
        units.rate(price),
        String(group),
        ...supplyCells(plan, k),
        ...(hasUnmet ? [unmet ? units.amount(unmet) : ''] : []),
        ...(hasPenalties ? [units.rate(place.penalty)] : []),
        ...(hasBounds ? passing : []),
        ...(hasBounds ? roomCells(plan, through, plan.passes[k]) : []),
        ...own.map((place_) => cellAt(place.cells, place_)),
      ],
    };
  };
  return {
    title: 'Places',
    columns: placeColumns(
      placeTable, { hasSupplies, hasUnmet, hasPenalties, hasBounds, hasRanges }
    ),
    count: told.length,
    row,
    from: placeTable,
    field: 'places',
  };
}

// This function returns the sheet of what places keep, if there are periods: a row for each place
// that keeps something, and a column for each period, and for first stock.
/** @type {(plan: FlowPlan) => Sheet[]} */
function stockSheet({ problem, stores }) {
  /** @type {Map<string, Map<string, bigint>>} */
  const found = new Map();
  problem.stores.forEach((store, k) => {
    const { name } = problem.places[store.tail - 1], kept = found.get(name) || new Map();
    if (!problem.isQuiet(store)) found.set(name, kept.set(store.departs, stores[k].carries));
  });
  const times = problem.times.slice(0, -1), periods = times.map(({ name }) => name);
  return found.size
    ? [
      sheetOf(
        'Stock',
        [
          column('name'),
          ...times.map(({ name, stock }) => number(name, stock ? FIRST_KEPT : 'kept after it')),
        ],
        [...found].map(([name, kept]) => ({
          kind: '',
          cells: [
            name,
            ...periods.map((one) => (kept.has(one) ? problem.units.amount(kept.get(one)) : '')),
          ],
        }))
      ),
    ]
    : [];
}

/** @type {(blocked: Blocked) => Shown} */
export function blockedShown(blocked) {
  const { problem } = blocked;
  const said = (/** @type {bigint} */ amount) => problem.said.amount(amount);
  const [supply, demand] = balanceOf(problem);
  const findings = blocked.bottlenecks.map((found) => bottleneckFinding(blocked, found));
  if (blocked.surplus) {
    const eased = supply > demand ? 'supplies may stay' : 'demands may be unmet';
    findings.unshift({
      figures: [
        ['supply', said(supply)],
        ['demand', said(demand)],
        ['short by', said(size(supply - demand))],
      ],
      sentence: 'Supplies and demands must be equal.',
      cure: `Make them equal, or choose that ${eased}.`,
    });
  }
  return {
    isPlan: false,
    headline: ({ unit }) => `No plan exists: ${whyBlocked(blocked, unit)}`,
    mark: problem.said.mark,
    lead: () => [
      ...warnings(problem, blocked.policy),
      'Whatever way amounts go, these places must send or take more than the routes around them '
        + 'carry.',
      ...problem.told(blocked.policy),
    ],
    facts: [],
    findings,
    scenes: (caption) => [blockedScene(blocked, caption)],
    sheets: [...limitingSheet(blocked), ...inputSheets(problem)],
    tables: () => [bottleneckTable(blocked)],
  };
}

// This function returns what a set must and can send or take, and the difference.
/**
 * @param {{ must: bigint, can: bigint }} found
 * @param {(amount: bigint) => string} [said]
 */
const shortfallOf = ({ must, can }, said = String) => [
  ['must', said(must)],
  ['can', said(can)],
  ['short by', said(must - can)],
];

/** @type {(blocked: Blocked, found: Bottleneck) => Finding} */
function bottleneckFinding(blocked, found) {
  const said = (/** @type {bigint} */ amount) => blocked.problem.said.amount(amount);
  const short = said(found.must - found.can);
  const routes = found.limiting.map((joint) => blocked.ends(joint).join(' -> '));
  const raise = routes.length
    ? `Give ${listed(routes)} ${short} more room${routes.length > 1 ? ' together' : ''}, or`
    : 'Give them a route, or';
  return {
    figures: shortfallOf(found, said),
    sentence: bottleneckSentence(blocked, found),
    cure: `${raise} move ${short} of ${found.side === 'take' ? 'demand' : 'supply'} elsewhere.`,
  };
}

/** @type {(blocked: Blocked) => Sheet[]} */
function limitingSheet(blocked) {
  const { units } = blocked.problem;
  /** @type {SheetRow[]} */
  const rows = [];
  blocked.bottlenecks.forEach(({ limiting, forcing }, k) => {
    for (const joint of limiting) {
      const cells = [`${k + 1}.`, ...blocked.ends(joint), units.amount(joint.most), ''];
      rows.push({ kind: 'full', cells });
    }
    for (const joint of forcing) {
      const cells = [`${k + 1}.`, ...blocked.ends(joint), '', units.amount(joint.least)];
      rows.push({ kind: '', cells });
    }
  });
  return rows.length
    ? [
      sheetOf(
        'Routes that limit them',
        [
          column('bottleneck'),
          column('from'),
          column('to'),
          number('most', 'so the route limits the places'),
          number('least', 'so it forces that upon them'),
        ],
        rows
      ),
    ]
    : [];
}

// This function returns the sheets whose cells may be changed if no plan exists.
/** @type {(problem: Problem) => Sheet[]} */
function inputSheets(problem) {
  const { routes, places, units, routeTable, placeTable } = problem, told = toldPlaces(problem);
  const name = (/** @type {number} */ node) => labelIn(places[node - 1]);
  return [
    {
      title: 'Routes',
      columns: [
        column('from'),
        column('to'),
        number('least', '', may(problem, 'least')),
        number('most', 'empty: no limit', may(problem, 'most')),
        number('cost', '', may(problem, 'cost')),
      ],
      count: routes.length,
      from: routeTable,
      field: 'routes',
      note: problem.periods.length
        ? ''
        : 'If you change least, most or supply, the page makes a new plan.',
      row: (k) => ({
        kind: '',
        cells: [
          name(routes[k].tail),
          name(routes[k].head),
          units.amount(routes[k].least),
          units.amount(routes[k].most),
          costsCell(problem, routes[k]),
        ],
      }),
    },
    {
      title: 'Places',
      columns: [
        column('name'),
        number('supply', 'above 0 it sends, below 0 it takes', supplyOf(placeTable)),
      ],
      count: told.length,
      from: placeTable,
      field: 'places',
      row: (k) => ({
        kind: '',
        cells: [labelIn(places[told[k]]), units.amount(places[told[k]].supply)],
      }),
    },
  ];
}

// ---- Persons and things

/** @type {(roster: Roster) => Shown} */
export function pairsShown(roster) {
  const { units, said, maximise, pairs } = roster, views = pairViews(roster);
  /** @type {SheetRow[]} */
  const rows = pairs.map(({ who, what, cost }) => (
    { kind: '', cells: [who, what, units.rate(cost)] }
  ));
  return {
    isPlan: true,
    headline: ({ currency }) =>
      `${maximise ? 'Greatest value' : 'Least cost'}: `
        + grouped(units.total(roster.cost), said.mark, currency),
    mark: said.mark,
    lead: () => [
      ...pairsSummary(roster).slice(2), ...roster.told([views.columns[views.chosen]]),
    ],
    facts: [
      [roster.persons.size, 'persons'],
      [roster.things.size, 'things'],
      [pairs.length, 'pairs'],
    ],
    findings: [],
    side: () => pairsSide(roster),
    sheets: [
      sheetOf(
        'Pairs',
        [column('who'), column('what'), number(maximise ? 'value' : 'cost')],
        rows,
        { totals: ['', '', units.total(roster.cost)] }
      ),
      ...groupSheets(roster),
      { ...views.sheet(0), views },
    ],
    tables: () => [
      pairsTable(roster), ...groupsTables(roster),
      pairSumsTable(roster, [views.columns[views.chosen]]),
    ],
  };
}

/** @type {(roster: Roster) => Shown} */
export function pairsBlocked(roster) {
  const rivals = roster.rivals(), lines = rivalsLines(roster, rivals);
  return {
    isPlan: false,
    headline: () => 'No such pairs exist',
    mark: roster.said.mark,
    lead: () => [...lines.filter((line, k) => k && !line.startsWith(' ')), ...roster.told()],
    facts: [],
    findings: rivals.map((found) => ({
      figures: shortfallOf(found),
      sentence: rivalsSentence(found),
      cure: '',
    })),
    sheets: [],
    tables: () => [rivalsTable(roster, rivals)],
  };
}

// ---- A DIMACS text

const ARC_COLUMNS = [
  ...['arc', 'from', 'to', 'least', 'most', 'cost', 'carries', 'total'].map((head) => number(head)),
  number('one more saves', 'what one more unit of room saves at most'),
];

/** @type {(network: Network, plan: Plan) => Sheet} */
function arcsSheet({ arcs }, { flows, prices }) {
  const saves = (/** @type {Arc} */ { tail, head, cost }) => {
    const saved = prices[tail - 1] - prices[head - 1] - cost;
    return saved > 0n ? saved : 0n;
  };
  /** @type {Sheet['row']} */
  const row = (k) => {
    const arc = arcs[k], flow = flows[k], saved = saves(arc);
    const { tail, head, least, most, cost } = arc;
    return {
      kind: flow !== 0n && flow === most ? 'full' : flow ? '' : 'idle',
      cells: [
        ...[k + 1, tail, head, least, most, cost, flow, flow * cost].map(String),
        saved ? String(saved) : '',
      ],
    };
  };
  const hasIdle = flows.some((flow) => flow === 0n);
  return { title: 'Arcs', columns: ARC_COLUMNS, count: arcs.length, row, hasIdle };
}

/** @type {(network: Network, plan: Plan) => Sheet} */
const nodesSheet = ({ supplies }, { prices }) => ({
  title: 'Nodes',
  columns: [number('node'), number('supply'), number('one more costs', 'minus its price')],
  count: supplies.length,
  row: (k) => ({ kind: '', cells: [k + 1, supplies[k], -prices[k]].map(String) }),
});

/** @type {(network: Network, plan: Plan) => Shown} */
export function textShown(network, plan) {
  const { arcs, supplies } = network;
  const carrying = plan.flows.reduce((count, flow) => count + Number(flow !== 0n), 0);
  return {
    isPlan: true,
    headline: ({ currency }) => `Least cost: ${grouped(String(plan.cost), '.', currency)}`,
    mark: '.',
    lead: () => [],
    facts: [[supplies.length, 'nodes'], [arcs.length, 'arcs'], [carrying, 'carry something']],
    findings: [],
    sheets: [arcsSheet(network, plan), nodesSheet(network, plan)],
    tables: () => [],
  };
}

/** @type {(bottlenecks: Bottleneck<Arc>[]) => Shown} */
export function textBlocked(bottlenecks) {
  const name = (/** @type {Arc} */ { tail, head, most }) => `${tail} -> ${head} (${most})`;
  const over = (/** @type {Bottleneck<Arc>} */ { limiting }) =>
    limiting.length ? `, over ${listed(limiting.map(name))}` : '';
  const findings = bottlenecks.map((found) => ({
    figures: shortfallOf(found),
    cure: '',
    sentence:
      `Nodes ${listed(found.nodes.map(String))} must ${found.side} ${found.must}, `
        + `and can ${found.side} only ${found.can}${over(found)}.`,
  }));
  /** @type {SheetRow[]} */
  const rows = bottlenecks.flatMap((found, k) =>
    found.limiting.map(({ tail, head, most }) => ({
      kind: 'full',
      cells: [`${k + 1}.`, String(tail), String(head), String(most)],
    }))
  );
  return {
    isPlan: false,
    headline: () => 'No flow exists',
    mark: '.',
    lead: () => [],
    facts: [],
    findings,
    tables: () => [],
    sheets: rows.length
      ? [
        sheetOf(
          'Arcs that limit them',
          [column('bottleneck'), number('from'), number('to'), number('most')],
          rows
        ),
      ]
      : [],
  };
}
