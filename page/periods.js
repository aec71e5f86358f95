// @ts-check
// Problems over periods: their places in each period, what departs in each, and what places keep
// from one to the next. First stock is there in a period before the named ones, and last stock is
// left in one after them.
import { ZERO, exactOf, limitOf } from './amounts.js';
import { cellAt } from './tables.js';

/** @typedef {import('./tables.js').Table} Table */

const KEEP_HEADS = ['keep most', 'keep cost'];
// The heads of stock, by which the answer calls the periods before and after those that are named.
const FIRST = 'first stock';
export const LAST = 'last stock';

// This function returns the periods that a table of places names, in order.
/** @type {(table: Table) => string[]} */
export function periodsOf(table) {
  const read = table.reader(['period']);
  return [...new Set(table.rows.map(({ cells }) => read(cells)[0]).filter(Boolean))];
}

// This function returns all periods: the named ones, one before them if there is first stock, and
// one after them if there is last stock.
/** @type {(table: Table, periods: string[], mark: string | null) => Period[]} */
export function timesOf(table, periods, mark) {
  const read = table.reader([FIRST, LAST]), rows = table.rows.map(({ cells }) => read(cells));
  const [first, last] = [0, 1].map((k) => rows.some((row) => exactOf(row[k], mark).digits));
  return [
    ...first ? [{ name: FIRST, rows: periods[0], stock: FIRST }] : [],
    ...periods.map((name) => ({ name, rows: name, stock: '' })),
    ...last ? [{ name: LAST, rows: periods[periods.length - 1], stock: LAST }] : [],
  ];
}

// This function returns the first place of each name.
/** @type {(places: Place<Exact>[]) => Place<Exact>[]} */
export function firstOf(places) {
  const found = new Map();
  for (const place of places) if (!found.has(place.name)) found.set(place.name, place);
  return [...found.values()];
}

// This function returns what the row of a place says of a period, or null if no row holds there.
/** @typedef {(name: string, period: string) => Place<Exact>} Holding */
/** @type {(table: Table, places: Place<Exact>[]) => Holding} */
function holding(table, places) {
  const read = table.reader(['period']);
  const rows = new Map(places.map((place) =>
    [JSON.stringify([place.name, read(place.cells)[0]]), place]
  ));
  return (name, period) =>
    rows.get(JSON.stringify([name, period])) || rows.get(JSON.stringify([name, ''])) || null;
}

// This function returns what a place sends and takes in a period by its row. First and last stock
// have no bounds. A penalty is that of the last stock alone if there is one and the place sends.
/**
 * @param {Place<Exact>} place
 * @param {Exact[]} stocks its first and its last stock
 * @param {Period} period
 * @param {boolean} isLast whether it is the last named period
 * @returns {Place<Exact>}
 */
function placeIn(place, [first, last], { name, stock }, isLast) {
  const found = { ...place, period: name, isStock: stock !== '' }, { penalty, supply } = place;
  if (stock === FIRST) return { ...found, supply: first, bounds: null, penalty: null };
  if (stock === LAST) {
    const taken = { ...last, digits: -last.digits };
    return { ...found, supply: taken, bounds: null, penalty: last.digits ? penalty : null };
  }
  return { ...found, penalty: isLast && last.digits && supply.digits > 0n ? null : penalty };
}

// This function returns the places in each of all periods. Where no row holds, a place sends and
// takes nothing.
/**
 * @param {Table} table
 * @param {Place<Exact>[]} places what each row says
 * @param {Period[]} periods
 * @param {string | null} mark
 * @returns {Place<Exact>[]}
 */
export function placesOver(table, places, periods, mark) {
  const holds = holding(table, places), read = table.reader([FIRST, LAST]);
  const named = periods.filter(({ stock }) => !stock), end = named[named.length - 1];
  return periods.flatMap((period) => firstOf(places).map((first) => {
    const row = holds(first.name, period.rows);
    const place = row ? { ...row, spot: row.spot || first.spot } : {
      ...first,
      supply: ZERO,
      bounds: null,
      penalty: null,
      cells: table.heads.map((head) => (head === 'name' ? first.name : '')),
    };
    const stocks = read(place.cells).map((cell) => exactOf(cell, mark));
    return placeIn(place, stocks, period, period === end);
  }));
}

// This function returns what places may keep from each period to the next, as routes: first and
// last stock without limit and for nothing, and all else as their rows say.
/**
 * @param {Table} table
 * @param {Place<Exact>[]} places what each row says
 * @param {Period[]} periods
 * @param {string | null} mark
 * @returns {ReadRoute[]}
 */
export function storesOf(table, places, periods, mark) {
  const firsts = firstOf(places), holds = holding(table, places), read = table.reader(KEEP_HEADS);
  return periods.slice(1).flatMap((after, t) => firsts.flatMap((first, k) => {
    const { name: departs, rows, stock } = periods[t], isStock = Boolean(stock || after.stock);
    const place = holds(first.name, rows), [most, cost] = place ? read(place.cells) : [];
    if (!isStock && !most && !cost) return [];
    const step = isStock
      ? { most: null, cost: ZERO }
      : { most: limitOf(most, mark), cost: exactOf(cost, mark) };
    return [{
      tail: k + 1 + firsts.length * t,
      head: k + 1 + firsts.length * (t + 1),
      least: ZERO,
      steps: [step],
      both: false,
      departs,
      arrives: after.name,
      isBack: false,
      line: (place || first).line,
      cells: place ? place.cells : [],
    }];
  }));
}

// This function returns the cells of a route that goes back: its ends in turn.
/** @type {(table: Table, cells: string[]) => string[]} */
function turned(table, cells) {
  const [from, to] = ['from', 'to'].map((head) => table.heads.indexOf(head));
  return cells.map((cell, k) => (k === from ? cells[to] : k === to ? cells[from] : cell));
}

// This function returns the departures of routes, whose ends are numbers of names; of one both
// ways, those in both directions.
/**
 * @param {Table} table
 * @param {ReadRoute[]} routes
 * @param {Period[]} periods
 * @param {number} count the number of names
 * @returns {ReadRoute[]}
 */
export function departuresOf(table, routes, periods, count) {
  const read = table.reader(['period', 'lead']);
  const named = periods.filter(({ stock }) => !stock).map(({ name }) => name);
  const before = periods[0].stock ? 1 : 0;
  return routes.flatMap((route) => {
    const [own, lead] = read(route.cells), later = Number(lead || 0);
    return named.slice(later).flatMap((arrives, t) => (
      own && own !== named[t] ? [] : (route.both ? [false, true] : [false]).map((isBack) => {
        const [tail, head] = isBack ? [route.head, route.tail] : [route.tail, route.head];
        return {
          ...route,
          cells: isBack ? turned(table, route.cells) : route.cells,
          tail: tail + count * (before + t),
          head: head + count * (before + t + later),
          both: false,
          departs: named[t],
          arrives,
          isBack,
        };
      })
    ));
  });
}

// This function says whether a place is about stock that isn't there, so that nothing is told.
/** @type {(place: Place) => boolean} */
export const isQuiet = ({ isStock, supply }) => isStock && !supply;

// This function returns the name of a place, with its period if there are periods.
/** @type {(place: { name: string, period: string }) => string} */
export const labelIn = ({ name, period }) => (period ? `${name} (${period})` : name);

// This function returns the cells of the column of periods as the plan has them: of a place its
// period, and of a route that of its departure.
/** @type {(table: Table, place: number, cells: string[], period: string) => string} */
export const cellOrPeriod = (table, place, cells, period) =>
  (period && table.heads[place] === 'period' ? period : cellAt(cells, place));
