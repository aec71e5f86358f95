// @ts-check
// The heads of results, and the columns that results copy.
import { BadTable, listed, shown } from './faults.js';
import { cellAt, fold } from './tables.js';
import { words } from './words.js';

/** @typedef {import('./tables.js').Table} Table */

// The heads that titles of the planner's own may stand for.
const OWN = [
  ...'name supply x y from to least most cost penalty both who what takes needs group'.split(' '),
  'period', 'keep most', 'keep cost', 'first stock', 'last stock', 'lead',
];
const NAMED = new RegExp(`(?:^|\\s)(${OWN.join('|')}|(?:most|cost) (?:[2-9]|[1-9]\\d+))=`);
// The heads of results, in groups.
export const FLOW_RESULTS = [
  'carries', 'total', 'free', 'one_more_saves', 'exact', 'one_more_carried_costs',
];
export const RANGE_RESULTS = ['cost_may_fall_to', 'cost_may_rise_to'];
export const ROOM_RESULTS = ['one_more_saves_for'];
export const PLACE_RESULTS = ['one_more_costs', 'group'];
export const SUPPLY_RESULTS = ['more_costs', 'more_costs_for'];
export const THROUGH_RESULTS = [
  'passes', 'passing_costs', 'free', 'one_more_saves', 'exact', 'one_more_passing_costs',
];
// The periods of what a route carries, and the period in which a place is.
export const ROUTE_PERIODS = ['departs_in', 'arrives_in'], PLACE_PERIOD = ['in_period'];
// The heads of the table of what places keep.
export const STOCK = [
  'name', 'period', 'next_period', 'keeps', 'total', 'free', 'one_more_saves', 'exact',
  'one_more_kept_costs',
];
// A sentence names at most so many of the columns that the results copy.
const LISTED = 24;

const RESULTS = [
  FLOW_RESULTS, RANGE_RESULTS, ROOM_RESULTS, PLACE_RESULTS, SUPPLY_RESULTS, THROUGH_RESULTS,
  ROUTE_PERIODS, PLACE_PERIOD,
];

/** @typedef {{ name: string, isUsed: boolean }} Carried a column, and whether sums use it */

// This function returns the columns of a table that the results copy and the module doesn't read:
// those without these heads, nor with heads of steps where the table has steps. Sums use the places
// of `used`. Columns of earlier results are left out, since new results replace them.
/** @type {(table: Table, known: string[], used: number[], hasSteps?: boolean) => Carried[]} */
export function carriedOf(table, known, used, hasSteps = false) {
  const isRead = (/** @type {string} */ head) =>
    known.includes(head) || (hasSteps && /^(most|cost) [0-9]+$/.test(head));
  const isThere = (/** @type {number} */ place) =>
    table.titles[place] || table.rows.some(({ cells }) => cellAt(cells, place));
  return table.kept(...RESULTS)
    .filter((place) => !isRead(table.heads[place]) && isThere(place))
    .map((place) => ({
      name: plainHead(table.titles[place]) || `column ${place + 1}`,
      isUsed: used.includes(place),
    }));
}

// What no minimum-cost flow can do: heads that planners give it, its words, and what can.
const INTEGERS = 'a mixed-integer solver such as HiGHS';
const CONSTRAINTS = 'a constraint solver such as OR-Tools CP-SAT';
const NO_FLOW = [
  [
    'rest, rest time, rest hours, min rest, ruhezeit',
    'keep rest times between shifts',
    CONSTRAINTS,
  ],
  [
    'consecutive, max consecutive, in a row, max in a row, in folge, max in folge',
    'limit consecutive shifts',
    CONSTRAINTS,
  ],
  [
    'window, time window, earliest, latest, opening hours, zeitfenster, öffnungszeiten',
    'keep time windows',
    CONSTRAINTS,
  ],
  [
    'not with, excludes, incompatible, nicht mit',
    'keep apart what excludes each other',
    CONSTRAINTS,
  ],
  [
    'lot, lot size, batch, batch size, pallet size, multiple of, los, losgröße, losgrösse, '
      + 'palettengröße, palettengrösse',
    'send lots of one size',
    INTEGERS,
  ],
  [
    'fixed cost, setup, setup cost, opening cost, fixkosten, rüstkosten',
    'charge for using something at all',
    INTEGERS,
  ],
  [
    'least if used, min if used, min lot, minimum lot, min order, minimum order, minimum order '
      + 'quantity, moq, mindestlos, mindestmenge, mindestabnahme',
    "say 'nothing, or at least so much'",
    INTEGERS,
  ],
  ['discount, rebate, rabatt, staffelpreis', 'let costs fall with the amount', INTEGERS],
  [
    'tour, tours, sequence, stops, max stops, vehicle capacity, reihenfolge, fahrzeugkapazität',
    'plan tours',
    'a vehicle-routing solver such as VROOM',
  ],
];

// What a table says otherwise than by a column of its own: the word of the table, heads that
// planners give it, and how it is said.
/** @type {[word: string, heads: string, told: (name: string) => string][]} */
const OTHERWISE = [
  ['places', 'demand, demands, need, bedarf, nachfrage', () => 'a demand is a supply below 0'],
  [
    'places',
    'lat, latitude, breite, breitengrad',
    (name) => `in the picture it is y if you say so: ${words().named('y', name)}`,
  ],
  [
    'places',
    'lon, long, lng, longitude, länge, längengrad',
    (name) => `in the picture it is x if you say so: ${words().named('x', name)}`,
  ],
  [
    'costs',
    'day, date, week, skill, qualification, tag, datum, woche, qualifikation',
    () => `how many of each one a person or a thing gets, ${words().groups}`,
  ],
];

// This function returns a line that lists the copied columns without a use, if there are any, and
// one on each column about what no minimum-cost flow can do.
/** @type {(columns: Carried[]) => string[]} */
export function carriedLines(columns) {
  const namesOf = (/** @type {Carried[]} */ some) => [...new Set(some.map(({ name }) => name))];
  const unused = namesOf(columns.filter(({ isUsed }) => !isUsed));
  return [
    ...(unused.length ? [`Columns carried along, not used: ${listed(unused, LISTED)}.`] : []),
    ...namesOf(columns).flatMap(beyondLines),
  ];
}

// This function returns lines on the copied columns without a use that say what a table says
// otherwise. Positions and groups are told only where they aren't there, and groups only where
// persons take several things.
/** @type {(word: string, columns: Carried[], table: Table, hasGroups?: boolean) => string[]} */
export function otherwiseLines(word, columns, table, hasGroups = false) {
  const takes = table.reader(['takes']);
  const isSaid = word === 'costs'
    ? hasGroups || !table.rows.some(({ cells }) => takes(cells)[0])
    : table.has(['x', 'y']);
  return columns.filter(({ isUsed }) => !isUsed).flatMap(({ name }) =>
    OTHERWISE.filter(([of, heads], k) =>
      of === word && !(k && isSaid) && heads.split(', ').includes(bareHead(name))
    ).map(([, , told]) => `Column ${name}: ${told(name)}.`)
  );
}

// This function returns a head as it is compared, without a unit between brackets after it.
/** @type {(name: string) => string} */
const bareHead = (name) => fold(name.replace(/[([].*/, '').replace(/[-_ ]+/g, ' ').trim());

// This function returns a line on a column, if its name is that of what no minimum-cost flow can
// do.
/** @type {(name: string) => string[]} */
function beyondLines(name) {
  const found = NO_FLOW.filter(([heads]) => heads.split(', ').includes(bareHead(name)));
  return found.map(([, what, other]) =>
    `Column ${name}: a minimum-cost flow can't ${what}; ${other} can.`
  );
}

// This function writes a head for a sentence: shortened, with characters that can't be printed
// spelt out.
/** @type {(title: string) => string} */
export const plainHead = (title) => shown(title).slice(1, -1);

// This function reads what the planner writes about titles: HEAD=NAME, and perhaps more of these.
/** @type {(text: string) => Record<string, string>} */
export function headsOf(text) {
  const [begin, ...parts] = text.split(NAMED).map((part) => part.trim());
  const heads = Object.fromEntries(parts.map((head, k) => [head, parts[k + 1]])
    .filter((_, k) => k % 2 === 0));
  if (begin || Object.values(heads).includes('')) {
    throw new BadTable([
      `heads in your tables, ${shown(text)}: write HEAD=NAME, where HEAD is one of `
        + OWN.join(', '),
    ]);
  }
  return heads;
}
