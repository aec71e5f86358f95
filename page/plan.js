// @ts-check
// The results of a plan, from the rows of an answer.
import { exactOf, scaled } from './amounts.js';
import { size } from './model.js';
import { isQuiet } from './periods.js';

/**
 * @typedef {import('./answer.js').Answer} Answer
 * @typedef {import('./model.js').Problem} Problem
 */

export const STAYS = '(stays)', MISSING = '(missing)', THROUGH = '(through)';
export const KEPT = '(kept)';

// This function returns what rows of an answer, as pairs of a key and a value, tell of keys;
// undefined for a key that they don't. A key that stands several times, as that of routes of one
// row of a matrix between the same places may, has its values in turn.
/**
 * @template T
 * @param {[key: string[], value: T][]} rows
 * @param {string[][]} keys
 * @returns {T[]}
 */
function toldInTurn(rows, keys) {
  /** @type {Map<string, T[]>} */
  const found = new Map();
  for (const [key, value] of rows) {
    const name = JSON.stringify(key), values = found.get(name);
    if (values) values.push(value);
    else found.set(name, [value]);
  }
  return keys.map((key) => found.get(JSON.stringify(key))?.shift());
}

// This function returns so many numbers that rows of an answer tell of keys, which are a line, one
// name or two, and a period; undefined for a key that they don't. In a row they stand before the
// period, which the answer leaves out if there are no periods.
/** @type {(rows: string[][], keys: string[][], count: number) => (string[] | undefined)[]} */
const numbersOf = (rows, keys, count) => toldInTurn(
  rows.map((cells) => {
    const begin = keys[0].length - 1, end = begin + count;
    return [[...cells.slice(0, begin), cells[end] || ''], cells.slice(begin, end)];
  }),
  keys
);

// The results of a plan; null where a figure is beyond what figures take. For a route, or for what
// passes through a place: the amount, its cost, the residual capacity (null: no limit), what one
// more unit of capacity saves, whether that saving is exact, and what it costs at least to carry
// one more unit (null: it is full). For a place: what one more unit costs there, the group within
// which that is exact, the amount that stays there or is missing, and, if it has bounds, what
// passes through it.
export class FlowPlan {
  /**
   * @param {Problem} problem
   * @param {Policy} policy
   * @param {Answer} answer
   */
  constructor(problem, policy, answer) {
    this.problem = problem;
    this.policy = policy;
    const { units } = problem;
    this.cost = scaled(exactOf(answer.number('cost')), units.amounts + units.costs);
    /** @type {RouteResult[]} */
    this.routes = problem.periods.length ? this.departures(answer) : this.alone(answer);
    const storeKeys = problem.stores.map(({ line, tail, departs }) =>
      [String(line), problem.places[tail - 1].name, departs]
    );
    const stores = toldInTurn(
      answer.rows('keep').map((cells) =>
        [[...cells.slice(0, 2), cells[8]], this.result(cells.slice(2))]
      ),
      storeKeys
    );
    // Of a stock, any amount may be kept: where a cost is below 0, it has a limit that no plan
    // fills, which isn't told.
    this.stores = stores.map((one, k) =>
      (problem.isStock(problem.stores[k]) ? { ...one, free: null } : one)
    );
    this.hasRanges = Boolean(policy.ranges);
    this.hasSupplies = this.hasRanges
      && Boolean(policy.short ? problem.namesPenalty : policy.unused);
    const routeKeys = problem.routes.map((route) => this.keyOf(route));
    const placeKeys = problem.places.map(({ line, name, period }) => [String(line), name, period]);
    /** @type {(word: string, keys: string[][], count: number) => (string[] | undefined)[]} */
    const told = (word, keys, count) => numbersOf(answer.rows(word), keys, count);
    this.ranges = this.rangesOf(problem.routes, told('range', routeKeys, 2));
    this.storeRanges = this.rangesOf(problem.stores, told('keep range', storeKeys, 2));
    this.rooms = this.roomsOf(told('room range', routeKeys, 1));
    this.storeRooms = this.roomsOf(told('keep room range', storeKeys, 1));
    this.passes = this.roomsOf(told('pass range', placeKeys, 1));
    this.supplies = told('supply range', placeKeys, 2).map((cells) =>
      cells && { cost: this.rateOf(cells[0]), most: this.limitOf(cells[1]) }
    );
    /** @type {Map<string, number>} */
    const groups = new Map();
    /** @type {PlaceResult[]} */
    this.places = answer.rows('place').map(([, , stays, missing, price, group, ...passes], k) => {
      // A place of which nothing is told takes no number of a group.
      if (!groups.has(group) && !isQuiet(problem.places[k])) groups.set(group, groups.size + 1);
      return {
        price: price ? this.rateOf(price) : null,
        group: groups.get(group),
        unmet: this.amountOf(stays) + this.amountOf(missing),
        through: problem.places[k].bounds && this.result(passes),
      };
    });
  }

  // This method returns the results of routes without periods.
  /** @type {(answer: Answer) => RouteResult[]} */
  alone(answer) {
    const backs = new Map(
      answer.rows('back').map((cells) => [cells[0], this.result(cells.slice(3))])
    );
    return answer.rows('route').map((cells) => {
      const there = this.result(cells.slice(3)), back = backs.get(cells[0]);
      return back ? bothWays(there, back) : there;
    });
  }

  // This method returns the results of departures.
  /** @type {(answer: Answer) => RouteResult[]} */
  departures(answer) {
    /** @type {(word: string) => [key: string[], value: RouteResult][]} */
    const rowsOf = (word) => answer.rows(word).map((cells) =>
      [[...cells.slice(0, 3), cells[9], word], this.result(cells.slice(3))]
    );
    return toldInTurn(
      [...rowsOf('route'), ...rowsOf('back')],
      this.problem.routes.map((route) => [...this.keyOf(route), route.isBack ? 'back' : 'route'])
    );
  }

  // This method returns the line of a route, the names of its ends, and its period.
  /** @type {(route: Route) => string[]} */
  keyOf({ line, tail, head, departs }) {
    const ends = [tail, head].map((end) => this.problem.places[end - 1].name);
    return [String(line), ...ends, departs];
  }

  /** @type {(text: string) => bigint} */
  amountOf(text) { return scaled(exactOf(text), this.problem.units.amounts); }

  // This method returns a number of units; null for an empty text, which is no limit.
  /** @type {(text: string) => bigint | null} */
  limitOf(text) { return text ? this.amountOf(text) : null; }

  /** @type {(text: string) => bigint} */
  rateOf(text) { return scaled(exactOf(text), this.problem.units.costs); }

  // This method returns what cells say of a route, or of what passes through a place.
  /** @type {(cells: string[]) => RouteResult} */
  result([carries, cost, free, saves, exact, dearer]) {
    const { amounts, costs } = this.problem.units;
    return {
      carries: this.amountOf(carries),
      cost: cost ? scaled(exactOf(cost), amounts + costs) : null,
      free: free ? this.amountOf(free) : null,
      saves: saves ? this.rateOf(saves) : null,
      isExact: exact === 'yes',
      dearer: dearer ? this.rateOf(dearer) : null,
    };
  }

  // This method returns from what to what the costs of the first steps of routes may change, by how
  // much each may fall and rise; null for a route of which that isn't told.
  /** @type {(routes: Route[], changes: (string[] | undefined)[]) => (CostRange | null)[]} */
  rangesOf(routes, changes) {
    return routes.map(({ steps: [{ cost }] }, k) => {
      if (!changes[k]) return null;
      const [down, up] = changes[k].map((text) => (text ? this.rateOf(text) : null));
      return { low: down === null ? null : cost - down, high: up === null ? null : cost + up };
    });
  }

  // This method returns for how many units one more unit of room saves what it saves: null is no
  // limit, and undefined is what isn't told.
  /** @type {(told: (string[] | undefined)[]) => (bigint | null | undefined)[]} */
  roomsOf(told) { return told.map((cells) => cells && this.limitOf(cells[0])); }

  // This method says whether a route carries its most, and that isn't 0.
  /** @type {(number: number) => boolean} */
  isFull(number) { return this.routes[number].free === 0n && this.routes[number].carries !== 0n; }

  // This method returns the places where something stays (or is missing), with the amounts.
  /** @type {(isSupply: boolean) => [place: Place, amount: bigint][]} */
  unmet(isSupply) {
    /** @type {[Place, bigint][]} */
    const amounts = this.problem.places.map((place, k) => [place, this.places[k].unmet]);
    return amounts.filter(([place, unmet]) => unmet && (place.supply > 0n) === isSupply);
  }
}

// This function returns the results of a route both ways whose way back is told by itself: what
// goes back counts as below 0, and one more unit of room saves what it saves on the better way. One
// more unit goes the way that is used, or, if none is, the cheaper way.
/** @type {(there: RouteResult, back: RouteResult) => RouteResult} */
function bothWays(there, back) {
  const better = back.saves > there.saves ? back : there, carries = there.carries - back.carries;
  return {
    carries,
    cost: there.cost === null || back.cost === null ? null : there.cost + back.cost,
    free: there.free === null ? null : there.free + there.carries - size(carries),
    saves: better.saves,
    isExact: better.isExact,
    dearer: carries > 0n ? there.dearer
      : carries < 0n ? back.dearer : cheaper(there.dearer, back.dearer),
  };
}

// This function returns the lower of two numbers, of which each may be missing.
/** @type {(one: bigint | null, other: bigint | null) => bigint | null} */
const cheaper = (one, other) =>
  one === null || (other !== null && other < one) ? other : one;
