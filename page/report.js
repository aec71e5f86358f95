// @ts-check
// The sentences and tables about a flow, as mcf_plan writes them.
import { balanceOf } from './blocked.js';
import { TOLD_NAMES, countOf, listed } from './faults.js';
import {
  FLOW_RESULTS, PLACE_PERIOD, PLACE_RESULTS, RANGE_RESULTS, ROOM_RESULTS, ROUTE_PERIODS, STOCK,
  SUPPLY_RESULTS, THROUGH_RESULTS,
} from './heads.js';
import { isQuiet, labelIn } from './periods.js';
import { MISSING, STAYS, THROUGH } from './plan.js';
import { SEPARATORS, cellAt, lineOf } from './tables.js';
import { words } from './words.js';

/**
 * @typedef {import('./blocked.js').Blocked} Blocked
 * @typedef {import('./model.js').Problem} Problem
 * @typedef {import('./plan.js').FlowPlan} FlowPlan
 */

// This function returns a table with the columns of another table and then groups of results. The
// result columns hold figures, except those of periods.
/**
 * @param {string} name
 * @param {import('./tables.js').Table} like
 * @param {string[][]} results
 * @param {[cells: string[], results: string[]][]} rows
 * @returns {SavedTable}
 */
function after(name, like, results, rows) {
  const places = like.kept(...results, RANGE_RESULTS, ROOM_RESULTS, SUPPLY_RESULTS);
  const heads = [...places.map((place) => like.titles[place]), ...results.flat()];
  return {
    name,
    like,
    heads,
    rows: rows.map(([cells, more]) => [...places.map((place) => cellAt(cells, place)), ...more]),
    figures: heads.map((_, k) => k).slice(places.length)
      .filter((k) => ![...ROUTE_PERIODS, ...PLACE_PERIOD].includes(heads[k])),
  };
}

// This function lists the routes in order, with their own columns, then the amounts that stay or
// are missing.
/** @type {(plan: FlowPlan) => SavedTable} */
export function flowsTable(plan) {
  const { problem } = plan;
  const { units } = problem;
  const hasPeriods = problem.periods.length > 0;
  const own = [
    FLOW_RESULTS, ...plan.hasRanges ? [RANGE_RESULTS, ROOM_RESULTS] : [],
  ];
  /** @type {(departs: string, arrives: string) => string[]} */
  const periods = (departs, arrives) => (hasPeriods ? [departs, arrives] : []);
  /** @type {[string[], string[]][]} */
  const rows = problem.routes.map((route, k) => [
    route.cells,
    [
      ...cellsOf(plan, plan.routes[k]), ...rangeCells(plan, plan.ranges[k]),
      ...roomCells(plan, plan.routes[k], plan.rooms[k]),
      ...periods(route.departs, route.arrives),
    ],
  ]);
  for (const isSupply of [true, false]) {
    for (const [place, amount] of plan.unmet(isSupply)) {
      const ends = new Map([
        ['from', isSupply ? place.name : MISSING],
        ['to', isSupply ? STAYS : place.name],
      ]);
      const penalty = isSupply ? 0n : problem.penaltyOf(place);
      const cost = penalty === null ? null : penalty * amount;
      rows.push([
        problem.routeTable.heads.map((head) => ends.get(head) || ''),
        [
          units.amount(amount), units.total(cost), ...own.flat().slice(2).map(() => ''),
          ...periods(place.period, place.period),
        ],
      ]);
    }
  }
  return after('flows', problem.routeTable, hasPeriods ? [...own, ROUTE_PERIODS] : own, rows);
}

// This function lists what places keep from each period to the next, if there are periods, and what
// of their first and last stock, if they have some.
/** @type {(plan: FlowPlan) => SavedTable[]} */
export function stockTables(plan) {
  const { problem } = plan;
  const heads = [...STOCK, ...plan.hasRanges ? [...RANGE_RESULTS, ...ROOM_RESULTS] : []];
  return problem.periods.length
    ? [{
      name: 'stock',
      like: problem.placeTable,
      heads,
      rows: problem.stores.flatMap((store, k) => (problem.isQuiet(store) ? [] : [[
        problem.places[store.tail - 1].name, store.departs, store.arrives,
        ...cellsOf(plan, plan.stores[k]),
        ...rangeCells(plan, plan.storeRanges[k]),
        ...roomCells(plan, plan.stores[k], plan.storeRooms[k]),
      ]])),
      figures: heads.map((_, k) => k).slice(3),
    }]
    : [];
}

// This function returns from what to what the cost of a route may change, if the plan has ranges.
/** @type {(plan: FlowPlan, range: CostRange | null) => string[]} */
export function rangeCells({ hasRanges, problem: { units } }, range) {
  if (!hasRanges) return [];
  return range ? [units.rate(range.low), units.rate(range.high)] : ['unknown', 'unknown'];
}

// This function returns for how many units more room each saves what one more does, on a route or
// in a place, if the plan has ranges. It is empty without a limit, and where room saves nothing.
/** @type {(plan: FlowPlan, result: RouteResult | null, told?: bigint | null) => string[]} */
export function roomCells({ hasRanges, problem: { units } }, result, told) {
  if (!hasRanges) return [];
  if (!result || !result.saves) return [''];
  return [told === undefined ? 'unknown' : units.amount(told)];
}

// This function returns what each further unit of a supply or of a demand costs, and for how many
// units, if the plan tells that. The number of units is empty without a limit. Both are empty where
// more of a supply stays, and where demands may be missing.
/** @type {(plan: FlowPlan, k: number) => string[]} */
export function supplyCells({ hasSupplies, supplies, policy, problem: { units, places } }, k) {
  if (!hasSupplies) return [];
  const told = supplies[k];
  if (told) return [units.rate(told.cost), units.amount(told.most)];
  const untold = places[k].supply < 0n && !policy.short ? 'unknown' : '';
  return [untold, untold];
}

/** @type {(plan: FlowPlan, result: RouteResult) => string[]} */
function cellsOf(plan, { carries, cost, free, saves, isExact, dearer }) {
  const { units } = plan.problem;
  return [
    units.amount(carries),
    units.total(cost),
    units.amount(free),
    units.rate(saves),
    isExact ? 'yes' : 'no',
    units.rate(dearer),
  ];
}

// This function lists the places in order, with their own columns. One more unit at a place costs
// minus the price of the place. Where there is no first or last stock, nothing is told of it.
/** @type {(plan: FlowPlan) => SavedTable} */
export function pricesTable(plan) {
  const hasBounds = plan.problem.places.some((place) => place.bounds);
  /** @type {[string[], string[]][]} */
  const rows = plan.problem.places.flatMap((place, k) => {
    const { price, group, through } = plan.places[k];
    return isQuiet(place) ? [] : [[
      place.cells,
      [
        plan.problem.units.rate(price),
        String(group),
        ...supplyCells(plan, k),
        ...(!hasBounds ? [] : through ? cellsOf(plan, through) : THROUGH_RESULTS.map(() => '')),
        ...(hasBounds ? roomCells(plan, through, plan.passes[k]) : []),
        ...(place.period ? [place.period] : []),
      ],
    ]];
  });
  return after(
    'prices',
    plan.problem.placeTable,
    [
      PLACE_RESULTS,
      ...(plan.hasSupplies ? [SUPPLY_RESULTS] : []),
      ...(hasBounds ? [THROUGH_RESULTS, ...(plan.hasRanges ? [ROOM_RESULTS] : [])] : []),
      ...(plan.problem.periods.length ? [PLACE_PERIOD] : []),
    ],
    rows
  );
}

// This function lists the bottlenecks. In each, column must adds up to what must be sent (or
// taken), and column can to what can be.
/** @type {(blocked: Blocked) => SavedTable} */
export function bottleneckTable(blocked) {
  const { problem, network } = blocked;
  const said = (/** @type {bigint} */ number) => problem.units.amount(number);
  /** @type {string[][]} */
  const rows = [];
  blocked.findings().forEach((found, k) => {
    const { side, nodes, forcing, limiting } = found, begin = [String(k + 1), side];
    const sign = side === 'send' ? 1n : -1n, supplies = new Map();
    for (const node of nodes) {
      const place = network.placeOf[node - 1], before = supplies.get(place) || 0n;
      supplies.set(place, before + sign * network.supplies[node - 1]);
    }
    for (const place of blocked.placesOf(found)) {
      const name = labelIn(problem.places[place]);
      rows.push([...begin, 'place', name, '', '', said(supplies.get(place)), '']);
    }
    for (const joint of forcing) {
      rows.push([...begin, ...jointCells(blocked, joint), said(joint.least), '']);
    }
    for (const joint of limiting) {
      rows.push([...begin, ...jointCells(blocked, joint), '', said(joint.most)]);
    }
  });
  return {
    name: 'bottleneck',
    like: problem.routeTable,
    heads: ['bottleneck', 'side', 'kind', 'name', 'from', 'to', 'must', 'can'],
    rows,
    figures: [0, 6, 7],
  };
}

/** @type {(blocked: Blocked, joint: Joint) => string[]} */
const jointCells = (blocked, joint) => (
  joint.kind === 'through'
    ? ['through', blocked.ends(joint)[0], '', '']
    : [joint.kind === 'keep' ? 'keep' : 'route', '', ...blocked.ends(joint)]
);

// This function writes a table as CSV, with the separator and the byte-order mark of the table
// `like`, and with `mark` before decimals.
/**
 * @param {Csv} table
 * @param {string | null} [mark]
 */
export function csvOf({ heads, rows, like, figures }, mark) {
  const texts = (/** @type {Csv['rows'][0]} */ row) => row.map((value, k) =>
    figures.includes(k) ? String(value).replace('.', mark || '.') : String(value)
  );
  const named = SEPARATORS.includes(like.separator) ? '' : `sep=${like.separator}\n`;
  const lines = [heads, ...rows.map(texts)].map((cells) => lineOf(cells, like.separator));
  return `${like.mark ? '\ufeff' : ''}${named}${lines.join('\n')}\n`;
}

// This function lists likely mistakes in tables that can be read. First stock counts as supply and
// last stock as demand, so they leave nothing to say.
/** @type {(problem: Problem, policy: Policy) => string[]} */
export function slips(problem, policy) {
  const [supply, demand] = balanceOf(problem), { places, placeTable, times } = problem;
  if (times.some(({ stock }) => stock)) return [];
  if (supply && !demand) {
    const stays = policy.unused ? ', and all that is sent stays' : '';
    return [
      `no supply is below 0, so no place takes anything${stays}: `
        + 'was demand written as a positive number?',
    ];
  }
  if (demand && !supply) {
    const missing = policy.short ? ', and all that is taken is missing' : '';
    return [
      `no supply is above 0, so no place sends anything${missing}: `
        + 'was supply written as a negative number?',
    ];
  }
  const column = placeTable.heads.indexOf('supply');
  if (!supply && places.some(({ cells }) => !cellAt(cells, column))) {
    return ['all supplies are empty or 0, so no place sends or takes anything: was one forgotten?'];
  }
  return [];
}

// This function says how supplies and demands differ.
/** @type {(problem: Problem) => string} */
export function balanceSentence(problem) {
  const [supply, demand] = balanceOf(problem);
  const said = (/** @type {bigint} */ number) => problem.said.amount(number);
  const [more, less, cure] = supply > demand
    ? ['supply', 'demand', words().unused]
    : ['demand', 'supply', words().short];
  const gap = supply > demand ? supply - demand : demand - supply;
  return `${more} exceeds ${less} by ${said(gap)}: the supplies add to ${said(supply)}, `
    + `the demands to ${said(demand)}, and they must be equal (${cure}).`;
}

// This function says that these places must send (or take) N and can only M, over these routes:
// short by N - M.
/** @type {(blocked: Blocked, found: Bottleneck) => string} */
export function bottleneckSentence(blocked, found) {
  const said = (/** @type {bigint} */ number) => blocked.problem.said.amount(number);
  const places = blocked.placesOf(found).map((place) => labelIn(blocked.problem.places[place]));
  const jointName = (/** @type {Joint} */ joint) => {
    const ends = blocked.ends(joint);
    return joint.kind === 'through' ? `through ${ends[0]}` : ends.join(' -> ');
  };
  /** @type {(joints: Joint[], bound: 'least' | 'most') => string} */
  const joined = (joints, bound) =>
    listed(joints.map((joint) => `${jointName(joint)} (${said(joint[bound])})`));
  const who = `${listed(places)}${places.length > 1 ? ' together' : ''}`;
  let must = `${who} must ${found.side} ${said(found.must)}`;
  if (found.forcing.length) must += ` (with the least of ${joined(found.forcing, 'least')})`;
  if (!found.limiting.length) {
    return `${must}, and no route ${found.side === 'send' ? 'leads away' : 'leads there'}.`;
  }
  return `${must}, and can ${found.side} only ${said(found.can)}, `
    + `over ${joined(found.limiting, 'most')}. Short by ${said(found.must - found.can)}.`;
}

// This function explains why there is no plan.
/** @type {(blocked: Blocked) => string[]} */
export function blockedSummary(blocked) {
  const { problem, surplus, bottlenecks } = blocked;
  const lines = [`No plan exists, ${words().none}:`];
  if (surplus) lines.push(`  ${balanceSentence(problem)}`);
  if (surplus && bottlenecks.length) {
    const eases = surplus > 0n ? 'stays' : 'is short';
    lines.push(`Even if that ${eases}, no plan exists, ${words().none}:`);
  }
  const told = bottlenecks.slice(0, TOLD_NAMES);
  return [...lines, ...told.map((found) => `  ${bottleneckSentence(blocked, found)}`)];
}

// This function says what a person wants to know first about a plan.
/** @type {(plan: FlowPlan) => string[]} */
export function flowSummary(plan) {
  const { problem } = plan;
  const carrying = plan.routes.filter((result) => result.carries).length;
  const full = plan.routes.filter((_, k) => plan.isFull(k)).length;
  const saving = savingsOf(plan);
  const cost = problem.said.total(plan.cost);
  const lines = [
    `A least-cost plan, ${words().found}: cost ${cost}.`,
    `${countsOfProblem(problem).map((one) => countOf(...one)).join(', ')}: `
      + `${carrying} ${carrying === 1 ? 'carries' : 'carry'} something, `
      + `${full} ${full === 1 ? 'is' : 'are'} full.`,
    ...besideLines(plan),
  ];
  if (saving.length) lines.push('One more unit of room would save most on:');
  return [
    ...lines,
    ...saving
      .slice(0, 5)
      .map(({ ends, result }) => `  ${ends.join(' -> ')}: ${savedText(plan, result)}`),
  ];
}

// This function returns how many places and routes there are, with the words for one and for
// several; and how many periods and departures, if there are periods.
/** @type {(problem: Problem) => [number, string, string][]} */
export function countsOfProblem({ places, routes, periods }) {
  const names = new Set(places.map(({ name }) => name)).size;
  return periods.length
    ? [
      [names, 'place', 'places'], [periods.length, 'period', 'periods'],
      [routes.length, 'departure', 'departures'],
    ]
    : [[names, 'place', 'places'], [routes.length, 'route', 'routes']];
}

// This function says what is kept from a period to the next, beside first and last stock, if there
// are periods.
/** @type {(plan: FlowPlan) => string[]} */
function stockLines({ problem, stores }) {
  if (!problem.periods.length) return [];
  const kept = stores.filter(({ carries }, k) => carries && !problem.isStock(problem.stores[k]));
  if (!kept.length) return ['Nothing is kept from a period to the next.'];
  const cost = problem.said.total(kept.reduce((sum, one) => sum + (one.cost || 0n), 0n));
  const most = kept.reduce((most_, { carries }) => (carries > most_ ? carries : most_), 0n);
  return [
    `What places keep costs ${cost} of that; at most ${problem.said.amount(most)} at once.`,
  ];
}

/** @type {(plan: FlowPlan, result: RouteResult) => string} */
export const savedText = (plan, { saves, isExact }) =>
  `${isExact ? '' : 'at most '}${plan.problem.said.text(plan.problem.units.rate(saves))}`;

// This function returns the routes and the places where more capacity saves costs, the greatest
// saving first.
/** @type {(plan: FlowPlan) => { ends: string[], result: RouteResult }[]} */
export function savingsOf(plan) {
  const { problem } = plan;
  const found = problem.routes.map((route, k) => ({
    ends: problem.ends(route),
    result: plan.routes[k],
  }));
  problem.stores.forEach((store, k) => {
    found.push({ ends: problem.ends(store), result: plan.stores[k] });
  });
  problem.places.forEach((place, k) => {
    if (plan.places[k].through) {
      found.push({ ends: [labelIn(place), THROUGH], result: plan.places[k].through });
    }
  });
  return found.filter(({ result }) => result.saves).sort(
    (a, b) => (a.result.saves < b.result.saves ? 1 : a.result.saves > b.result.saves ? -1 : 0)
  );
}

// This function says what stays, what is missing, and what passing through places costs.
/** @type {(plan: FlowPlan) => string[]} */
export function besideLines(plan) {
  const said = (/** @type {bigint} */ number) => plan.problem.said.amount(number);
  const { policy, problem } = plan;
  const lines = [];
  for (const isSupply of [true, false]) {
    if (!policy[isSupply ? 'unused' : 'short']) continue;
    const found = plan.unmet(isSupply);
    const total = found.reduce((sum, [, unmet]) => sum + unmet, 0n);
    const paid = isSupply ? 0n : found.reduce(
      (sum, [place, unmet]) => sum + unmet * (problem.penaltyOf(place) || 0n), 0n
    );
    const cost = paid ? `, which costs ${problem.said.total(paid)} of that` : '';
    const where = listed(found.map(([place, unmet]) => `${labelIn(place)} ${said(unmet)}`));
    lines.push(
      found.length
        ? `${said(total)} ${isSupply ? 'stay' : 'are missing'} at: ${where}${cost}.`
        : `Nothing ${isSupply ? 'stays' : 'is missing'}.`
    );
  }
  lines.push(...stockLines(plan));
  const passing = plan.places.reduce((sum, { through }) => sum + (through?.cost || 0n), 0n);
  const costs = plan.problem.said.total(passing);
  return passing ? [...lines, `Passing through places costs ${costs} of that.`] : lines;
}
