// @ts-check
// This file describes the picture of a plan, or of the bottlenecks if there is none. A node has a
// name, the short name for its box, a note, a kind (sends, takes or passes on) and a spot. A link
// has its ends from 0, a width, a kind, a label and a title. Groups are sets of nodes that form
// bottlenecks.
import { size } from './model.js';
import { balanceOf } from './blocked.js';
import { isQuiet, labelIn } from './periods.js';
import { grouped } from './view.js';

/**
 * @typedef {import('./blocked.js').Blocked} Blocked
 * @typedef {import('./model.js').Problem} Problem
 * @typedef {import('./plan.js').FlowPlan} FlowPlan
 * @typedef {object} Figures
 * @property {(number: bigint | null, unit?: string) => string} amount
 * @property {(number: bigint, unit?: string) => string} total
 */

// If there are more routes than ALL_ROUTES, those that carry nothing are left out. If no plan
// exists and there are more places than NEAR, the picture shows only the bottlenecks and their
// neighbours.
const ALL_ROUTES = 90, NEAR = 60;
// The most periods with a picture.
const DRAWN = 60;
// The greatest length of a name in a box, and what a longer name keeps of its beginning and end.
const LONGEST = 24, BEGIN = 12, END = 11;

// This function writes the numbers of a problem as the page does: with narrow spaces between
// thousands, and with their units where they are given.
/** @type {(problem: Problem) => Figures} */
const figuresOf = ({ units, said: { mark } }) => ({
  amount: (number, unit) => grouped(units.amount(number), mark, unit),
  total: (number, unit) => grouped(units.total(number), mark, unit),
});

// This function describes a plan, or one picture of each period, up to a number.
/** @type {(plan: FlowPlan, caption: Caption) => Scene[]} */
export const planScenes = (plan, caption) => {
  const { periods } = plan.problem;
  return (periods.length ? periods.slice(0, DRAWN) : [''])
    .map((period) => planScene(plan, caption, period));
};

// This function describes a plan, or what departs in a period. If there are many routes, it shows
// those that carry something or have capacity 0.
/** @type {(plan: FlowPlan, caption: Caption, period?: string) => Scene} */
export function planScene(plan, caption, period = '') {
  const { problem } = plan, { amount: said, total } = figuresOf(problem);
  /** @type {SceneLink[]} */
  const links = [];
  const here = indicesOf(problem.places, (place) => isDrawn(place, period));
  const departing = indicesOf(problem.routes, ({ departs }) => departs === period);
  const widest = plan.routes.reduce(
    (most, { carries }) => (size(carries) > most ? size(carries) : most),
    0n
  );
  for (const k of departing) {
    const { most } = problem.routes[k];
    if (departing.length > ALL_ROUTES && !plan.routes[k].carries && most !== 0n) continue;
    const link = linkOf(plan, k, widest);
    links.push({ ...link, tail: link.tail % here.length, head: link.head % here.length });
  }
  const idle = departing.length - links.length;
  const left = idle ? ` (${idle} idle routes aren't drawn)` : '';
  const shorts = shortNames(here.map((k) => problem.places[k].name));
  const stock = stockIn(plan, period);
  const heading = period || `A least-cost plan: cost ${total(plan.cost, caption.currency)}`;
  return {
    heading: heading + left,
    nodes: here.map((k, n) =>
      nodeOf(problem, problem.places[k], shorts[n], plan.places[k].unmet, stock.get(k))
    ),
    links,
    groups: [],
    notes: {
      flowing: `as wide as it carries (widest ${said(widest, caption.unit)})`,
      full: 'full',
    },
    caption,
  };
}

/** @type {<T>(list: T[], test: (one: T) => boolean) => number[]} */
const indicesOf = (list, test) => list.map((_, k) => k).filter((k) => test(list[k]));

// This function says whether a place is in the picture of a period, or in that of all if there are
// no periods.
/** @type {(place: Place, period: string) => boolean} */
const isDrawn = (place, period) => place.period === period && !place.isStock;

// This function returns the notes on what places have of their first stock in a period, and on what
// they keep after it, by their numbers from 0.
/** @type {(plan: FlowPlan, period: string) => Map<number, string[]>} */
function stockIn({ problem, stores }, period) {
  const { amount: said } = figuresOf(problem);
  /** @type {Map<number, string[]>} */
  const notes = new Map();
  /** @type {(end: number, note: string) => void} */
  const add = (end, note) => { notes.set(end - 1, [...notes.get(end - 1) || [], note]); };
  problem.stores.forEach(({ tail, head }, k) => {
    const { carries } = stores[k], [from, to] = [tail, head].map((end) => problem.places[end - 1]);
    if (carries && isDrawn(from, period)) add(tail, `keeps ${said(carries)}`);
    else if (carries && from.isStock && isDrawn(to, period)) {
      add(head, `first stock ${said(carries)}`);
    }
  });
  return notes;
}

// This function describes route k of a plan. If the flow runs in the opposite direction, the link
// does, too.
/** @type {(plan: FlowPlan, k: number, widest: bigint) => SceneLink} */
function linkOf(plan, k, widest) {
  const { problem } = plan, { amount: said, total } = figuresOf(problem);
  const route = problem.routes[k], result = plan.routes[k];
  const turned = route.both && result.carries < 0n;
  const carries = turned ? -result.carries : result.carries;
  const names = problem.ends(route);
  return {
    tail: (turned ? route.head : route.tail) - 1,
    head: (turned ? route.tail : route.head) - 1,
    width: carries ? 1.4 + 7.6 * Number(size(carries)) / Number(widest) : 1,
    kind: plan.isFull(k) ? 'full' : carries ? 'flowing' : 'idle',
    label: carries
      ? said(carries) + (route.arrives === route.departs ? '' : ` → ${route.arrives}`)
      : '',
    title:
      `${(turned ? names.reverse() : names).join(' -> ')}: ${said(carries)} of `
        + `${limitsText(problem, route)}, cost ${total(result.cost)}`,
  };
}

// This function describes the bottlenecks. If there are many places, it shows only these and their
// neighbours.
/** @type {(blocked: Blocked, caption: Caption) => Scene} */
export function blockedScene(blocked, caption) {
  const { problem } = blocked, { amount: said } = figuresOf(problem);
  const marked = markedOf(blocked);
  /** @type {SceneLink[]} */
  const links = [...problem.routes, ...problem.stores].map((route, all) => {
    const { length } = problem.routes;
    const number = all < length ? `route ${all}` : `keep ${all - length}`;
    const kind = marked.get(`${number} 1`) || marked.get(`${number} -1`) || 'other';
    return {
      tail: route.tail - 1,
      head: route.head - 1,
      width: kind === 'other' ? 1.2 : 2.6,
      kind,
      label: { limits: `≤ ${said(route.most)}`, forces: `≥ ${said(route.least)}`, other: '' }[kind],
      title: `${problem.ends(route).join(' -> ')}: ${limitsText(problem, route)}`,
    };
  });
  const cuts = shortNames(problem.places.map(labelIn));
  const nodes = problem.places.map((place, k) => {
    const node = nodeOf(problem, place, cuts[k]);
    const limit = marked.has(`through ${k} 1`) ? `≤ ${said(place.bounds.most)} pass` : '';
    return { ...node, note: [node.note, limit].filter(Boolean).join(', ') };
  });
  const groups = blocked.bottlenecks.map((found) =>
    new Set(blocked.placesOf(found))
  );
  const heading = `No plan exists: ${whyBlocked(blocked, caption.unit)}`;
  const notes = marked.size ? { limits: 'limits them' } : {};
  const told = indicesOf(problem.places, (place) => !isQuiet(place));
  const scene = partOf({ heading, nodes, links, groups, notes, caption }, told);
  return scene.nodes.length > NEAR && groups.length ? nearScene(scene) : scene;
}

// This function marks what forces or limits a bottleneck, by its kind, number and sign.
/** @type {(blocked: Blocked) => Map<string, 'forces' | 'limits'>} */
function markedOf({ bottlenecks }) {
  /** @type {Map<string, 'forces' | 'limits'>} */
  const marked = new Map();
  /** @type {(joint: Joint) => string} */
  const key = ({ kind, number, sign }) => `${kind} ${number} ${sign}`;
  for (const { forcing, limiting } of bottlenecks) {
    for (const joint of forcing) marked.set(key(joint), 'forces');
    for (const joint of limiting) marked.set(key(joint), 'limits');
  }
  return marked;
}

// This function says in a few words why no plan exists. Amounts have this unit.
/** @type {(blocked: Blocked, unit: string) => string} */
export function whyBlocked({ problem, surplus, bottlenecks }, unit) {
  const { amount } = figuresOf(problem), [supply, demand] = balanceOf(problem);
  if (surplus) return `supply ${amount(supply, unit)}, demand ${amount(demand, unit)}`;
  const short = bottlenecks.reduce((sum, { must, can }) => sum + must - can, 0n);
  const several = bottlenecks.length > 1 ? ` in ${bottlenecks.length} bottlenecks` : '';
  return `short by ${amount(short, unit)}${several}`;
}

// This function keeps the places in bottlenecks and those that a route joins with them.
/** @type {(scene: Scene) => Scene} */
function nearScene(scene) {
  const blocking = new Set(scene.groups.flatMap((group) => [...group])), near = new Set(blocking);
  for (const { tail, head } of scene.links) {
    if (blocking.has(tail) || blocking.has(head)) near.add(tail).add(head);
  }
  const left = scene.nodes.length - near.size;
  const heading = scene.heading + (left ? ` (${left} places farther off aren't drawn)` : '');
  return partOf({ ...scene, heading }, [...near].sort((a, b) => a - b));
}

// This function returns a scene with some of its places, and the routes between them. All places
// that block are among them.
/** @type {(scene: Scene, chosen: number[]) => Scene} */
function partOf(scene, chosen) {
  const numbers = new Map(chosen.map((node, k) => [node, k]));
  return {
    ...scene,
    nodes: chosen.map((node) => scene.nodes[node]),
    links: scene.links
      .filter(({ tail, head }) => numbers.has(tail) && numbers.has(head))
      .map((link) => ({ ...link, tail: numbers.get(link.tail), head: numbers.get(link.head) })),
    groups: scene.groups.map((group) => new Set([...group].map((node) => numbers.get(node)))),
  };
}

/**
 * @param {Problem} problem
 * @param {Place} place
 * @param {string} short
 * @param {bigint} [unmet]
 * @param {string[]} [stock] notes
 * @returns {SceneNode}
 */
function nodeOf(problem, place, short, unmet = 0n, stock = []) {
  const kind = place.supply > 0n ? 'sends' : place.supply < 0n ? 'takes' : 'passes';
  const { amount: said } = figuresOf(problem);
  const notes = [
    place.supply ? `${kind} ${said(size(place.supply))}` : '',
    unmet ? `${said(unmet)} ${place.supply > 0n ? 'stays' : 'missing'}` : '',
    ...stock,
  ];
  return {
    name: labelIn(place),
    short,
    note: notes.filter(Boolean).join(', '),
    kind,
    spot: place.spot,
  };
}

// This function says what a route carries at least and at most.
/** @type {(problem: Problem, route: Route) => string} */
function limitsText(problem, route) {
  const { amount } = figuresOf(problem), least = amount(route.least), most = amount(route.most);
  if (route.both) return `${most || 'any amount'}, either way`;
  return most ? `${least} to ${most}` : `${least} or more`;
}

// This function returns what a box shows of each name. A long name keeps its beginning and its end.
// If two short forms are the same, they show where the names differ.
/** @type {(names: string[]) => string[]} */
export function shortNames(names) {
  const letters = names.map((name) => [...name]);
  const shorts = letters.map((name) => cut(name, name.length - END));
  tellApart(letters, shorts, letters.map((_, k) => k), 0);
  return shorts;
}

// This function cuts a name that is too long: it keeps the beginning and what follows the letter at
// `begin`.
/** @type {(letters: string[], begin: number) => string} */
function cut(letters, begin) {
  if (letters.length <= LONGEST) return letters.join('');
  const rest = letters.slice(Math.max(BEGIN, Math.min(begin, letters.length - END)));
  const first = letters.slice(0, BEGIN).join('');
  return rest.length <= END
    ? `${first}…${rest.join('')}`
    : `${first}…${rest.slice(0, END - 1).join('')}…`;
}

// This function cuts names with the same short form where they first differ, if that is after
// `begin`.
/** @type {(names: string[][], shorts: string[], numbers: number[], begin: number) => void} */
function tellApart(names, shorts, numbers, begin) {
  /** @type {Map<string, number[]>} */
  const alike = new Map();
  for (const k of numbers) {
    if (!alike.has(shorts[k])) alike.set(shorts[k], []);
    alike.get(shorts[k]).push(k);
  }
  for (const group of alike.values()) {
    const found = names[group[0]].findIndex((letter, place) =>
      group.some((k) => names[k][place] !== letter)
    );
    const differ = found < 0 ? names[group[0]].length : found;
    if (group.length < 2 || differ <= begin) continue;
    for (const k of group) shorts[k] = cut(names[k], differ);
    tellApart(names, shorts, group, differ);
  }
}
