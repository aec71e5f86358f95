// @ts-check
// Why there is no plan: bottlenecks, from the rows of an answer.
import { Network } from './network.js';
import { isQuiet, labelIn } from './periods.js';
import { MISSING, STAYS, THROUGH } from './plan.js';

/**
 * @typedef {import('./answer.js').Answer} Answer
 * @typedef {import('./model.js').Problem} Problem
 */

/** @type {Record<SendOrTake, SendOrTake>} */
const OTHER_SIDE = { send: 'take', take: 'send' };

// This function returns the sum of the supplies and the sum of the demands.
/** @type {(problem: Problem) => bigint[]} */
export function balanceOf({ places }) {
  return [1n, -1n].map((sign) =>
    places.reduce((sum, place) => (sign * place.supply > 0n ? sum + sign * place.supply : sum), 0n)
  );
}

// This function says how far supplies exceed demands where that can't stay; below 0, how far
// demands exceed supplies where that can't be missing; and otherwise 0.
/** @type {(problem: Problem, policy: Policy) => bigint} */
export function surplusOf(problem, { unused, short }) {
  const [supply, demand] = balanceOf(problem), surplus = supply - demand;
  return (surplus > 0n ? unused : short) ? 0n : surplus;
}

// The network of a problem. What arrives at place k enters at node k, from 1. What leaves a place
// with bounds does so at a node of its own, and otherwise where it enters. What may stay or be
// missing joins nodes with node 0.
/** @augments {Network<Joint>} */
class PlaceNetwork extends Network {
  /**
   * @param {Problem} problem
   * @param {Policy} policy
   */
  constructor({ places, routes, stores }, { unused, short }) {
    const bounded = places.filter(({ bounds }) => bounds).length;
    super([...places.map(({ supply }) => supply), ...new Array(bounded).fill(0n)], []);
    this.placeOf = places.map((_, k) => k);
    this.exits = places.map((_, k) => k + 1);
    places.forEach((place, k) => { if (place.bounds) this.split(k, place); });
    for (const sign of [1, -1]) this.addRoutes('route', routes, sign);
    this.addRoutes('keep', stores, 1);
    places.forEach(({ bounds }, number) => {
      const one = { number, sign: 1, tail: number + 1, head: this.exits[number] };
      if (bounds) this.arcs.push({ ...one, ...bounds, kind: 'through' });
    });
    places.forEach(({ supply }, number) => {
      const one = { number, sign: 1, tail: number + 1, head: this.exits[number], least: 0n };
      if (unused && supply > 0n) this.arcs.push({ ...one, kind: 'stays', head: 0, most: supply });
      if (short && supply < 0n) this.arcs.push({ ...one, kind: 'missing', tail: 0, most: -supply });
    });
  }

  // This method adds routes, or the other ways of those that have one.
  /** @type {(kind: 'route' | 'keep', routes: Route[], sign: number) => void} */
  addRoutes(kind, routes, sign) {
    routes.forEach(({ tail, head, least, most, both }, number) => {
      const [from, to] = sign > 0 ? [tail, head] : [head, tail];
      if (sign < 0 && !both) return;
      this.arcs.push({
        kind,
        number,
        sign,
        tail: this.exits[from - 1],
        head: to,
        least: sign > 0 ? least : 0n,
        most,
      });
    });
  }

  // This method gives a place a node at which it leaves, which has its demand.
  /** @type {(number: number, place: Place) => void} */
  split(number, { supply }) {
    this.exits[number] = this.placeOf.push(number);
    if (supply > 0n) return;
    this.supplies[this.exits[number] - 1] = supply;
    this.supplies[number] = 0n;
  }
}

// The bottlenecks of tables without a plan.
//
// If supplies and demands differ, all places together are one. Further ones may remain if the
// surplus may stay or be missing: `eased` is the answer to that, or null.
export class Blocked {
  /**
   * @param {Problem} problem
   * @param {Policy} policy
   * @param {Answer} answer
   * @param {{ policy: Policy, answer: Answer } | null} eased
   */
  constructor(problem, policy, answer, eased) {
    this.problem = problem;
    this.policy = policy;
    // What supplies have too much, or, below 0, demands.
    this.surplus = surplusOf(problem, policy);
    const told = this.surplus ? eased : { policy, answer };
    this.network = new PlaceNetwork(problem, told.policy);
    this.bottlenecks = told.answer.numbers.has('side') ? this.parts(told) : [];
  }

  // This method returns the bottlenecks among the parts of the set of an answer, which nothing
  // joins; or among those of all other nodes, if these are fewer and if nothing may stay or be
  // missing, for then they have to take what the set has to send.
  /** @type {(told: { policy: Policy, answer: Answer }) => Bottleneck[]} */
  parts({ policy: { unused, short }, answer }) {
    const side = /** @type {SendOrTake} */ (answer.number('side')), set = this.setOf(answer);
    const choices = { [side]: this.network.blockingParts(side, set) };
    if (!unused && !short) {
      const others = this.all().filter((node) => !set.has(node)), other = OTHER_SIDE[side];
      choices[other] = this.network.blockingParts(other, new Set(others));
    }
    const count = (/** @type {Bottleneck[]} */ found) =>
      found.reduce((sum, one) => sum + this.placesOf(one).length, 0);
    const { send = [], take = [] } = choices;
    return !send.length || (take.length && count(take) < count(send)) ? take : send;
  }

  // This method returns the nodes that an answer names.
  /** @type {(answer: Answer) => Set<number>} */
  setOf(answer) {
    const numbers = new Map(this.problem.places.map(({ name, period }, k) =>
      [JSON.stringify([name, period]), k]
    ));
    const set = new Set();
    for (const [, name, entry, exit, , , , , period = ''] of answer.rows('place')) {
      const place = numbers.get(JSON.stringify([name, period]));
      if (entry === 'yes') set.add(place + 1);
      if (exit === 'yes') set.add(this.network.exits[place]);
    }
    return set;
  }

  // This method returns all nodes.
  all() { return this.network.supplies.map((_, k) => k + 1); }

  // This method returns all bottlenecks, the imbalance first.
  /** @type {() => Bottleneck[]} */
  findings() {
    if (!this.surplus) return this.bottlenecks;
    const side = this.surplus > 0n ? 'send' : 'take';
    const { nodes, must } = this.network.bottleneck(side, new Set(this.all()));
    return [{ side, nodes, must, can: 0n, forcing: [], limiting: [] }, ...this.bottlenecks];
  }

  // This method returns the numbers from 0 of the places of a bottleneck, without those of which
  // nothing is told.
  /** @type {(found: Bottleneck) => number[]} */
  placesOf({ nodes }) {
    const { places } = this.problem, found = nodes.map((node) => this.network.placeOf[node - 1]);
    return [...new Set(found)].filter((k) => !isQuiet(places[k])).sort((a, b) => a - b);
  }

  // This method returns the names of the ends of what joins nodes.
  /** @type {(joint: Joint) => string[]} */
  ends({ kind, number, sign }) {
    if (kind === 'route') {
      const names = this.problem.ends(this.problem.routes[number]);
      return sign > 0 ? names : names.reverse();
    }
    if (kind === 'keep') return this.problem.ends(this.problem.stores[number]);
    const name = labelIn(this.problem.places[number]);
    return { stays: [name, STAYS], missing: [MISSING, name], through: [name, THROUGH] }[kind];
  }
}
