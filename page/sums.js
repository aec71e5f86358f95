// @ts-check
// Sums of a plan: over its places, its routes or its pairs, by the values of a column.
import { column, number, ownColumns, sheetOf } from './columns.js';
import {
  FLOW_RESULTS, PLACE_PERIOD, PLACE_RESULTS, ROUTE_PERIODS, THROUGH_RESULTS,
} from './heads.js';
import { size } from './model.js';
import { NEEDED } from './sentences.js';
import { cellOrPeriod, isQuiet } from './periods.js';
import { cellAt } from './tables.js';

/**
 * @typedef {import('./pairs.js').Roster} Roster
 * @typedef {import('./plan.js').FlowPlan} FlowPlan
 * @typedef {import('./amounts.js').Units} Units
 * @typedef {['places' | 'routes', number]} FlowColumn a table and the place of its column
 * @typedef {[value: string, numbers: bigint[]]} Line
 */

// The heads of sums over places and over routes, between the number of lines and the cost.
const PLACE_SUMS = ['comes_in', 'goes_out', 'sends', 'takes', 'stays', 'missing'];
const ROUTE_SUMS = ['carries'];
const PLACE_COLUMNS = [
  number('lines', 'so many places'),
  number('comes in', 'over routes'),
  number('goes out', 'over routes'),
  number('sends', 'of its supply'),
  number('takes', 'of its demand'),
  number('stays', 'of its supply'),
  number('missing', 'of its demand'),
  number('total', 'cost of what goes out'),
];
const ROUTE_COLUMNS = [
  number('lines', 'so many routes'),
  number('carries', 'in this plan'),
  number('total', 'cost of what they carry'),
];
const PAIR_COLUMNS = [number('pairs', 'so many'), number('total', 'their cost')];

/** @type {(one: bigint | null, other: bigint | null) => bigint | null} */
const plus = (one, other) => (one === null || other === null ? null : one + other);

/** @type {(value: string, numbers: bigint[]) => Line} */
const lineOfSums = (value, numbers) => [value, numbers];

// This function returns the sums of lists of numbers by their values, in the order of the lines.
/** @type {(lines: Line[]) => Line[]} */
function added(lines) {
  /** @type {Map<string, bigint[]>} */
  const found = new Map();
  for (const [value, numbers] of lines) {
    const before = found.get(value);
    found.set(value, before ? before.map((one, k) => plus(one, numbers[k])) : numbers);
  }
  return [...found];
}

// This function returns the places from which a route's amount goes and to which, from 0.
/** @type {(route: Route, result: RouteResult) => number[]} */
const wayOf = ({ tail, head }, { carries }) =>
  carries < 0n ? [head - 1, tail - 1] : [tail - 1, head - 1];

// This function returns for each place: the number 1, or 0 for stock that isn't there; its inflow
// and outflow over routes, what it sends and takes, its surplus and shortage, and the cost of its
// outflow.
/** @type {(plan: FlowPlan) => bigint[][]} */
function placeNumbers({ problem, routes, places }) {
  const found = problem.places.map((place, k) => {
    const { supply } = place, { unmet } = places[k], sends = supply > 0n;
    const met = size(supply) - unmet, count = isQuiet(place) ? 0n : 1n;
    return [count, 0n, 0n, ...(sends ? [met, 0n, unmet, 0n] : [0n, met, 0n, unmet]), 0n];
  });
  problem.routes.forEach((route, k) => {
    const [tail, head] = wayOf(route, routes[k]), amount = size(routes[k].carries);
    found[head][1] += amount;
    found[tail][2] += amount;
    found[tail][7] = plus(found[tail][7], routes[k].cost);
  });
  return found;
}

// This function returns the sums of a plan by a column of its places or of its routes.
/** @type {(plan: FlowPlan, column: FlowColumn) => Sums} */
function flowSums(plan, [table, place]) {
  const { problem } = plan, { places, routes, placeTable, routeTable } = problem;
  if (table === 'places') {
    const numbers = placeNumbers(plan);
    const lines = places.map(({ cells, period }, k) =>
      lineOfSums(cellOrPeriod(placeTable, place, cells, period), numbers[k])
    );
    return { table, by: placeTable.titles[place], rows: added(lines) };
  }
  const end = ['from', 'to'].indexOf(routeTable.heads[place]);
  const lines = routes.map((route, k) => {
    const { carries, cost } = plan.routes[k];
    const value = end < 0
      ? cellOrPeriod(routeTable, place, route.cells, route.departs)
      : places[wayOf(route, plan.routes[k])[end]].name;
    return lineOfSums(value, [1n, size(carries), cost]);
  });
  return { table, by: routeTable.titles[place], rows: added(lines) };
}

// This function writes sums: the number of lines, amounts, and a cost.
/** @type {(numbers: bigint[], units: Units) => string[]} */
const textsOfSums = (numbers, units) => numbers.map((one, k) =>
  k === 0 ? String(one) : k < numbers.length - 1 ? units.amount(one) : units.total(one)
);

// This function returns the column of the places' names, and that of periods if there are periods.
/** @type {(plan: FlowPlan) => FlowColumn[]} */
const firstColumns = ({ problem: { placeTable, periods } }) =>
  (periods.length ? ['name', 'period'] : ['name'])
    .map((head) => ['places', placeTable.heads.indexOf(head)]);

// This function returns the table of the sums of a plan: over the places by their names, and by
// periods if there are periods, then by further columns.
/** @type {(plan: FlowPlan, columns: FlowColumn[]) => SavedTable} */
export function flowSumsTable(plan, columns) {
  const all = new Map([...firstColumns(plan), ...columns].map((one) => [one.join(), one]));
  const found = [...all.values()].map((one) => flowSums(plan, one));
  const middle = found.some(({ table }) => table === 'routes')
    ? [...PLACE_SUMS, ...ROUTE_SUMS]
    : PLACE_SUMS;
  const rows = found.flatMap(({ table, by, rows: sums }) => sums.map(([value, numbers]) => {
    const [count, ...texts] = textsOfSums(numbers, plan.problem.units);
    const heads = table === 'places' ? PLACE_SUMS : ROUTE_SUMS;
    const cells = middle.map((head) => texts[heads.indexOf(head)] ?? '');
    return [table, by, value, count, ...cells, texts[heads.length]];
  }));
  const heads = ['table', 'by', 'value', 'lines', ...middle, 'total'];
  const figures = heads.map((_, k) => k).slice(3);
  return { name: 'sums', like: plan.problem.placeTable, heads, rows, figures };
}

// This function returns the columns by which a plan may be summed: names, ends, and the planner's
// own columns.
/** @type {(plan: FlowPlan) => FlowColumn[]} */
function flowColumns(plan) {
  const { placeTable, routeTable } = plan.problem;
  const ends = ['from', 'to'].map((head) => routeTable.heads.indexOf(head));
  const results = [FLOW_RESULTS, PLACE_RESULTS, THROUGH_RESULTS, ROUTE_PERIODS, PLACE_PERIOD];
  const own = (/** @type {import('./tables.js').Table} */ table) =>
    ownColumns(table).filter((place) => table.kept(...results).includes(place));
  return [
    ...firstColumns(plan),
    ...own(placeTable).map((place) => /** @type {FlowColumn} */ (['places', place])),
    ...[...ends, ...own(routeTable)].map((place) => /** @type {FlowColumn} */ (['routes', place])),
  ];
}

// This function returns a sheet of sums, with some of their numbers as columns.
/** @type {(sums: Sums, columns: Column[], units: Units, chosen?: number[]) => Sheet} */
function sumsSheet(sums, columns, units, chosen = columns.map((_, k) => k)) {
  const { table, by, isNumber, rows } = sums;
  const picked = (/** @type {bigint[]} */ numbers) => {
    const texts = textsOfSums(numbers, units);
    return chosen.map((k) => texts[k]);
  };
  const [[, total] = ['', columns.map(() => 0n)]] = added(rows.map(([, numbers]) => ['', numbers]));
  return sheetOf(
    `Sums of ${table} by ${by}`,
    [isNumber ? number(by) : column(by), ...chosen.map((k) => columns[k])],
    rows.map(([value, numbers]) => {
      const amounts = numbers.slice(1, -1), isIdle = amounts.length && !amounts.some(Boolean);
      return { kind: isIdle ? 'idle' : '', cells: [value, ...picked(numbers)] };
    }),
    { totals: ['', ...picked(total)] }
  );
}

// This function returns the sheet of the sums by a column. What may stay, and what may be missing,
// is a column if the choices allow it; the number of places is one if some have the same value.
/** @type {(plan: FlowPlan, column: FlowColumn) => Sheet} */
function flowSheet(plan, by) {
  const sums = flowSums(plan, by), { units } = plan.problem, { unused, short } = plan.policy;
  if (sums.table === 'routes') return sumsSheet(sums, ROUTE_COLUMNS, units);
  const isOne = sums.rows.every(([, [count]]) => count === 1n);
  const hidden = [isOne && 0, !unused && 5, !short && 6];
  const chosen = PLACE_COLUMNS.map((_, k) => k).filter((k) => !hidden.includes(k));
  return sumsSheet(sums, PLACE_COLUMNS, units, chosen);
}

// This function returns the sums of a plan by each column, of which the page shows one.
/** @type {(plan: FlowPlan) => Views<FlowColumn>} */
export function flowViews(plan) {
  const { placeTable, routeTable } = plan.problem, columns = flowColumns(plan);
  const titles = { places: placeTable.titles, routes: routeTable.titles };
  return {
    columns,
    labels: columns.map(([table, place]) => `${table} by ${titles[table][place]}`),
    chosen: 0,
    sheet: (k) => flowSheet(plan, columns[k]),
  };
}

// ---- Pairs

// This function returns the places of the columns of pairs: in a matrix, these three are all.
/** @type {(roster: Roster) => number[]} */
const pairPlaces = ({ isList, table }) =>
  NEEDED.costs.map((head, k) => (isList ? table.heads.indexOf(head) : k));

// This function returns the columns by which sums of pairs always are: things, persons if one has
// several, and costs.
/** @type {(roster: Roster) => number[]} */
function usualPlaces(roster) {
  const [who, what, cost] = pairPlaces(roster), { pairs } = roster;
  return new Set(pairs.map((pair) => pair.who)).size < pairs.length
    ? [what, who, cost]
    : [what, cost];
}

// This function returns the sums of chosen pairs by a column. Values without a pair are among them,
// except for costs.
/** @type {(roster: Roster, place: number) => Sums} */
function pairSums(roster, place) {
  const { table, pairs, isList, units, persons, things } = roster;
  const head = NEEDED.costs[pairPlaces(roster).indexOf(place)];
  const by = isList ? table.titles[place] : head;
  const sorted = head === 'cost'
    ? [...pairs].sort((a, b) => (a.cost < b.cost ? -1 : Number(a.cost > b.cost)))
    : pairs;
  /** @type {Record<string, (pair: ChosenPair) => string>} */
  const values = {
    who: ({ who }) => who,
    what: ({ what }) => what,
    cost: ({ cost }) => units.rate(cost),
  };
  const valueOf = values[head] || (({ cells }) => cellAt(cells, place));
  const lines = sorted.map((pair) => lineOfSums(valueOf(pair), [1n, pair.cost]));
  const all = head
    ? { who: [...persons.keys()], what: [...things.keys()], cost: [] }[head]
    : table.rows.map(({ cells }) => cellAt(cells, place));
  const none = all.map((value) => lineOfSums(value, [0n, 0n]));
  return { table: 'pairs', by, isNumber: head === 'cost', rows: added([...none, ...lines]) };
}

// This function returns the table of the sums of pairs: by the usual columns, then by further ones.
/** @type {(roster: Roster, places: number[]) => SavedTable} */
export function pairSumsTable(roster, places) {
  const found = [...new Set([...usualPlaces(roster), ...places])], { units, said } = roster;
  const rows = found.flatMap((place) => {
    const { by, isNumber, rows: sums } = pairSums(roster, place);
    return sums.map(([value, numbers]) =>
      [by, isNumber ? said.text(value) : value, ...textsOfSums(numbers, units)]
    );
  });
  const heads = ['by', 'value', 'pairs', 'total'];
  return { name: 'sums', like: roster.table, heads, rows, figures: [2, 3] };
}

// This function returns the sums of pairs by each column, of which the page shows one.
/** @type {(roster: Roster) => Views<number>} */
export function pairViews(roster) {
  const { table, isList, units } = roster, used = [...NEEDED.costs, 'takes', 'needs'];
  const own = isList ? ownColumns(table).filter((place) => !used.includes(table.heads[place])) : [];
  const columns = [...usualPlaces(roster), ...own];
  return {
    columns,
    labels: columns.map((place) => `pairs by ${pairSums(roster, place).by}`),
    chosen: 0,
    sheet: (k) => sumsSheet(pairSums(roster, columns[k]), PAIR_COLUMNS, units),
  };
}
