// @ts-check
// This file turns the tables of an answer into places and routes, in whole numbers. The module has
// read every number, every name and every yes or no in them.
import {
  Said,
  Units,
  ZERO,
  decimalsOf,
  exactOf,
  limitOf,
  scaled,
  settledBy,
} from './amounts.js';
import { Faults, countOf } from './faults.js';
import { carriedLines, carriedOf, otherwiseLines } from './heads.js';
import {
  departuresOf, firstOf, isQuiet, labelIn, periodsOf, placesOver, storesOf, timesOf,
} from './periods.js';
import { NEEDED, numberCells, readLine } from './sentences.js';
import { SPOT_HEADS, spotsOf } from './spots.js';
import { Table, alikeLines, cellAt, fold, notesOf } from './tables.js';
import { words } from './words.js';

const BOUND_HEADS = ['least', 'most', 'cost'];
const PLACE_PERIODS = ['period', 'keep most', 'keep cost', 'first stock', 'last stock'];
const ROUTE_HEADS = [...NEEDED.routes, 'least', 'both', 'period', 'lead'];
const YES = ['yes', 'y', 'x', '1', 'true', 'ja', 'j'];

/**
 * @typedef {import('./answer.js').Answer} Answer
 * @typedef {import('./tables.js').TableText} TableText
 */

// The places and the routes of an answer to two texts. The constructor throws a BadTable if a place
// has no spot where others have one.
export class Problem {
  /**
   * @param {Answer} answer
   * @param {TableText[]} texts
   * @param {Reading} reading
   * @param {string} [penalty] the cost of each missing unit at places without their own, or ''
   */
  constructor(answer, texts, reading, penalty = '') {
    this.mark = answer.mark;
    this.reading = reading;
    this.notes = notesOf(texts);
    this.placeTable = new Table(texts[0], answer.tables.get('places'));
    this.routeTable = new Table(texts[1], answer.tables.get('routes'));
    // The named periods, and with those of first and last stock.
    this.periods = periodsOf(this.placeTable);
    this.times = timesOf(this.placeTable, this.periods, this.mark);
    const { places, routes, stores } = this.read();
    const price = penalty ? exactOf(penalty, this.mark) : null;
    this.units = unitsOf(places, [...routes, ...stores], price || ZERO);
    this.said = new Said(this.units, this.mark);
    this.penalty = price && scaled(price, this.units.costs);
    this.places = places.map((place) => wholePlace(place, this.units));
    this.routes = routes.map((route) => wholeRoute(route, this.units));
    // What places may keep from a period to the next, as routes, with their first and last stock.
    this.stores = stores.map((store) => wholeRoute(store, this.units));
  }

  // This method reads places and routes, in each period if there are periods.
  /** @type {() => { places: Place<Exact>[], routes: ReadRoute[], stores: ReadRoute[] }} */
  read() {
    const { placeTable, routeTable, times, mark, notes } = this;
    const rows = placesOf(placeTable, mark, notes);
    const firsts = firstOf(rows), routes = routesOf(routeTable, firsts, mark);
    if (!this.periods.length) return { places: rows, routes, stores: [] };
    return {
      places: placesOver(placeTable, rows, times, mark),
      routes: departuresOf(routeTable, routes, times, firsts.length),
      stores: storesOf(placeTable, rows, times, mark),
    };
  }

  // This getter returns whether a penalty is named, for all places or for some.
  get namesPenalty() {
    return this.penalty !== null || this.places.some(({ penalty }) => penalty !== null);
  }

  // This method returns the cost of each unit that is missing at a place, or null if none is named.
  /** @type {(place: Place) => bigint | null} */
  penaltyOf({ penalty }) { return penalty === null ? this.penalty : penalty; }

  // This method returns lines on how the tables were read, beside sums by these columns.
  /** @type {(policy: Policy, by?: import('./sums.js').FlowColumn[]) => string[]} */
  told({ short }, by = []) {
    const { placeTable, routeTable } = this, hasSpots = placeTable.has(SPOT_HEADS);
    const cells = numberCells({ places: placeTable, routes: routeTable });
    const known = [
      ...NEEDED.places, ...BOUND_HEADS, 'penalty', ...(hasSpots ? SPOT_HEADS : []),
      ...PLACE_PERIODS,
    ];
    const placesIn = (/** @type {string} */ word) =>
      by.filter(([table]) => table === word).map(([, place]) => place);
    const carried = carriedOf(placeTable, known, placesIn('places'));
    const isUnused = !short && this.places.some(({ penalty }) => penalty !== null);
    const supply = placeTable.heads.indexOf('supply');
    const empty = placeTable.rows.filter(({ cells: row }) => !cellAt(row, supply)).length;
    return [
      ...this.notes,
      ...alikeLines('places', [...new Set(this.places.map(({ name }) => name))]),
      ...alikeLines('periods', this.periods),
      ...(empty ? [`${countOf(empty, 'empty supply is', 'empty supplies are')} read as 0.`] : []),
      ...(isUnused
        ? [`Penalties aren't used, since no demand may be short (${words().short}).`]
        : []),
      ...carriedLines([
        ...carried,
        ...carriedOf(routeTable, ROUTE_HEADS, placesIn('routes'), true),
      ]),
      ...otherwiseLines('places', carried, placeTable),
      ...readLine(settledBy(cells, this.mark), this.mark, this.reading),
    ];
  }

  // This method says whether what a place may keep is stock that isn't there.
  /** @type {(store: Route) => boolean} */
  isQuiet({ tail, head }) { return [tail, head].some((end) => isQuiet(this.places[end - 1])); }

  // This method says whether what a place may keep is its first or its last stock.
  /** @type {(store: Route) => boolean} */
  isStock({ tail, head }) { return [tail, head].some((end) => this.places[end - 1].isStock); }

  // This method returns the names of a route's ends, with their periods if there are periods.
  /** @type {(route: Route) => string[]} */
  ends({ tail, head }) { return [tail, head].map((end) => labelIn(this.places[end - 1])); }
}

/** @type {(number: bigint) => bigint} */
export const size = (number) => (number < 0n ? -number : number);

// This function returns the units in which all amounts and all costs of the tables are whole, and
// the penalty, too.
/** @type {(places: Place<Exact>[], routes: ReadRoute[], penalty: Exact) => Units} */
function unitsOf(places, routes, penalty) {
  const bounds = places.map((place) => place.bounds).filter(Boolean);
  const steps = [...routes.flatMap((route) => route.steps), ...bounds];
  const amounts = [
    ...places.map((place) => place.supply),
    ...routes.map((route) => route.least),
    ...bounds.map((part) => part.least),
    ...steps.map((part) => part.most).filter((most) => most !== null),
  ];
  const costs = [
    ...steps.map((part) => part.cost),
    ...places.map((place) => place.penalty).filter((own) => own !== null),
    penalty,
  ];
  return new Units(decimalsOf(amounts), decimalsOf(costs));
}

/** @type {(step: Step<Exact>, units: Units) => Step} */
const wholeStep = ({ most, cost }, units) => ({
  most: most === null ? null : scaled(most, units.amounts),
  cost: scaled(cost, units.costs),
});

/** @type {(place: Place<Exact>, units: Units) => Place} */
function wholePlace(place, units) {
  const { supply, bounds, penalty } = place;
  return {
    ...place,
    supply: scaled(supply, units.amounts),
    bounds: bounds && { ...wholeStep(bounds, units), least: scaled(bounds.least, units.amounts) },
    penalty: penalty && scaled(penalty, units.costs),
  };
}

/** @type {(route: ReadRoute, units: Units) => Route} */
function wholeRoute(route, units) {
  const steps = route.steps.map((step) => wholeStep(step, units));
  const most = steps.some((step) => step.most === null)
    ? null
    : steps.reduce((sum, step) => sum + step.most, 0n);
  return { ...route, least: scaled(route.least, units.amounts), steps, most };
}

/** @type {(table: Table, mark: string | null, notes: string[]) => Place<Exact>[]} */
function placesOf(table, mark, notes) {
  const heads = [...NEEDED.places, 'penalty', ...BOUND_HEADS];
  const read = table.reader(heads), faults = new Faults();
  const spots = spotsOf(table, faults);
  faults.end(notes);
  return table.rows.map(({ line, cells }, k) => {
    const [name, supply, penalty, ...bounds] = read(cells);
    return {
      name,
      supply: exactOf(supply, mark),
      spot: spots[k] || null,
      bounds: bounds.some(Boolean) ? boundsOf(bounds, mark) : null,
      penalty: limitOf(penalty, mark),
      period: '',
      isStock: false,
      line,
      cells,
    };
  });
}

/** @type {(cells: string[], mark: string | null) => Bounds<Exact>} */
const boundsOf = ([least, most, cost], mark) => ({
  least: exactOf(least, mark),
  most: limitOf(most, mark),
  cost: exactOf(cost, mark),
});


/** @type {(table: Table, places: Place<Exact>[], mark: string | null) => ReadRoute[]} */
function routesOf(table, places, mark) {
  const read = table.reader(['from', 'to', 'least', 'both']), steps = stepReader(table, mark);
  const known = new Map(places.map((place, k) => [place.name, k + 1]));
  return table.rows.map(({ line, cells }) => {
    const [from, to, least, both] = read(cells);
    return {
      tail: known.get(from),
      head: known.get(to),
      least: exactOf(least, mark),
      steps: steps(cells),
      both: YES.includes(fold(both)),
      departs: '',
      arrives: '',
      isBack: false,
      line,
      cells,
    };
  });
}

// This function reads the steps of a route: most and cost, then most 2 and cost 2, and so on, up to
// the first without cells.
/** @type {(table: Table, mark: string | null) => (cells: string[]) => Step<Exact>[]} */
function stepReader(table, mark) {
  const readers = [table.reader(['most', 'cost'])];
  for (let k = 2; table.heads.includes(`most ${k}`); k++) {
    readers.push(table.reader([`most ${k}`, `cost ${k}`]));
  }
  return (cells) => {
    const found = [];
    for (const read of readers) {
      const [most, cost] = read(cells);
      if (found.length && !most && !cost) break;
      found.push({ most: limitOf(most, mark), cost: exactOf(cost, mark) });
    }
    return found;
  };
}
