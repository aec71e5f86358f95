// @ts-check
// Plans beside one another: what a change did to a plan, and plans that were kept, as mcf_plan
// compare puts them side by side.
import { ZERO, decimalText, decimalsOf, exactOf, scaled } from './amounts.js';
import { column, number, sheetOf } from './columns.js';
import { labelIn } from './periods.js';
import { KEPT, MISSING, STAYS } from './plan.js';

/**
 * @typedef {import('./pairs.js').Roster} Roster
 * @typedef {import('./plan.js').FlowPlan} FlowPlan
 * @typedef {{ all: string, byPlace: string }} Delivered
 */

// The figures that are left out if they are 0 in all plans.
const RARE = ['stays', 'missing', 'cost of what is missing', 'cost of what is kept'];

// ---- What a change did

// This function describes how two plans differ. It matches routes by their ends, and routes with
// the same ends by their order.
/** @type {(before: FlowPlan, plan: FlowPlan) => { text: string, sheets: Sheet[] }} */
export function changesShown(before, plan) {
  const { units } = plan.problem;
  /** @type {SheetRow[]} */
  const rows = [];
  const now = carriedBy(plan);
  const was = carriedBy(before);
  const old = before.problem.units;
  for (const key of new Set([...was.keys(), ...now.keys()])) {
    const [a, b] = [was.get(key), now.get(key)];
    const texts = [a ? old.amount(a.carries) : '', b ? units.amount(b.carries) : ''];
    if (texts[0] !== texts[1]) rows.push({ kind: '', cells: [...(b || a).ends, ...texts] });
  }
  const [delivered, deliversNow] = [deliveredBy(before), deliveredBy(plan)];
  const [cost, other] = [
    before.problem.said.total(before.cost),
    plan.problem.said.total(plan.cost),
  ];
  const sheets = rows.length
    ? [
      sheetOf(
        'Routes that carry another amount than before',
        [column('from'), column('to'), number('before'), number('now')],
        rows
      ),
    ]
    : [];
  const differing = rows.length === 1 ? '1 route carries' : `${rows.length} routes carry`;
  return {
    text:
      `${deliverySentence(delivered, deliversNow)}Cost before ${cost}, now ${other}; `
        + `${differing} another amount.`,
    sheets,
  };
}

// This function returns what a plan delivers: the total as text, and the amount of each place.
/** @type {(plan: FlowPlan) => Delivered} */
function deliveredBy({ problem, places }) {
  const found = new Map();
  problem.places.forEach((place, k) => {
    if (place.supply < 0n) found.set(labelIn(place), -place.supply - places[k].unmet);
  });
  return {
    all: problem.said.amount([...found.values()].reduce((sum, amount) => sum + amount, 0n)),
    byPlace: JSON.stringify(
      [...found].map(([name, amount]) => [name, problem.units.amount(amount)]).sort()
    ),
  };
}

// This function warns if two plans deliver different amounts, since their costs can't be compared
// then.
/** @type {(before: Delivered, now: Delivered) => string} */
function deliverySentence(before, now) {
  if (before.byPlace === now.byPlace) return '';
  const told = before.all === now.all
    ? `Both deliver ${now.all} in all, but not the same at each place`
    : `The plan before delivers ${before.all} in all, this one ${now.all}`;
  return `${told}: mind that where you compare what they cost. `;
}

/** @type {(plan: FlowPlan) => Map<string, { ends: string[], carries: bigint }>} */
function carriedBy(plan) {
  const found = new Map();
  plan.problem.routes.forEach((route, k) => {
    const ends = plan.problem.ends(route);
    let key = JSON.stringify(ends), nth = 0;
    while (found.has(key)) key = JSON.stringify([...ends, ++nth]);
    found.set(key, { ends, carries: plan.routes[k].carries });
  });
  return found;
}

// ---- Plans side by side

// This function returns what is compared of a plan.
/** @type {(plan: FlowPlan) => Side} */
export function flowSide(plan) {
  const { problem, routes, stores } = plan, { units } = problem;
  const [stays, missing] = [true, false].map((isSupply) => plan.unmet(isSupply));
  const total = (/** @type {[Place, bigint][]} */ found) =>
    units.amount(found.reduce((sum, [, amount]) => sum + amount, 0n));
  const penalties = missing.reduce(
    (sum, [place, amount]) => sum + amount * (problem.penaltyOf(place) || 0n), 0n
  );
  const sent = problem.places.reduce((sum, { supply }) => sum + (supply < 0n ? -supply : 0n), 0n);
  const short = missing.reduce((sum, [, amount]) => sum + amount, 0n);
  const keeping = stores.reduce((sum, one) => sum + (one.cost || 0n), 0n);
  return {
    isFlow: true,
    mark: problem.mark,
    figures: [
      ['cost', units.total(plan.cost)],
      ['delivered', units.amount(sent - short)],
      ['stays', total(stays)],
      ['missing', total(missing)],
      ['cost of what is missing', units.total(penalties)],
      ['cost of what is kept', units.total(keeping)],
      ['routes', String(routes.length)],
      ['routes that carry something', String(routes.filter(({ carries }) => carries).length)],
      ['full routes', String(routes.filter((_, k) => plan.isFull(k)).length)],
    ],
    parts: numbered([
      ...routes.map(({ carries }, k) =>
        part(problem.ends(problem.routes[k]), units.amount(carries))
      ),
      ...stores.flatMap(({ carries }, k) => {
        const store = problem.stores[k], place = problem.places[store.tail - 1];
        const kept = part([labelIn(place), KEPT], units.amount(carries));
        return problem.isQuiet(store) ? [] : [kept];
      }),
      ...stays.map(([place, amount]) => part([labelIn(place), STAYS], units.amount(amount))),
      ...missing.map(([place, amount]) => part([MISSING, labelIn(place)], units.amount(amount))),
    ]),
    delivered: deliveredBy(plan).byPlace,
  };
}

// This function returns what is compared of pairs.
/** @type {(roster: Roster) => Side} */
export function pairsSide({ units, cost, mark, pairs, persons, things }) {
  const taking = new Set(pairs.map(({ who }) => who));
  const whats = pairs.map(({ what }) => what).sort();
  return {
    isFlow: false,
    mark,
    figures: [
      ['cost', units.total(cost)],
      ['pairs', String(pairs.length)],
      ['persons without a thing', String(persons.size - taking.size)],
      ['things left over', String(things.size - new Set(whats).size)],
    ],
    parts: numbered(pairs.map(({ who, what }) => part([who, what], '1'))
      .sort((a, b) => (a.key < b.key ? -1 : 1))),
    delivered: JSON.stringify(whats),
  };
}

/** @type {(ends: string[], amount: string) => SidePart} */
const part = (ends, amount) => ({ key: JSON.stringify(ends), ends, amount });

// This function tells parts with the same ends apart, by their order.
/** @type {(parts: SidePart[]) => SidePart[]} */
function numbered(parts) {
  /** @type {Map<string, number>} */
  const seen = new Map();
  return parts.map(({ ends, amount }) => {
    const key = JSON.stringify(ends), count = (seen.get(key) || 0) + 1;
    seen.set(key, count);
    return { key: JSON.stringify([...ends, count]), ends, amount };
  });
}

// Some plans, by their labels, and what each row says of all of them: the empty text of a plan that
// doesn't have a route or a pair.
export class Comparison {
  /** @param {{ label: string, side: Side }[]} kept */
  constructor(kept) {
    const sides = kept.map(({ side }) => side), [first] = sides;
    this.labels = kept.map(({ label }) => label);
    this.isFlow = first.isFlow;
    this.mark = sides.map(({ mark }) => mark).find(Boolean) || '.';
    this.isSame = sides.every(({ delivered }) => delivered === first.delivered);
    /** @type {[string, string[]][]} */
    this.figures = first.figures.map(([name], k) => (
      [name, sides.map(({ figures }) => figures[k][1])]
    ));
    this.figures = this.figures.filter(([name, values]) =>
      !RARE.includes(name) || values.some((value) => value !== '0')
    );
    /** @type {Map<string, { ends: string[], values: string[] }>} */
    const rows = new Map();
    sides.forEach(({ parts }, k) => {
      for (const { key, ends, amount } of parts) {
        const isUnmet = ends[0] === MISSING || ends[1] === STAYS;
        const none = sides.map(() => (isUnmet ? '0' : ''));
        if (!rows.has(key)) rows.set(key, { ends, values: none });
        rows.get(key).values[k] = amount;
      }
    });
    this.parts = [...rows.values()].map((row) => ({ ...row, apart: apart(row.values) }));
  }

  // This method returns the sheets of the figures, and of the routes or pairs: those that differ
  // first.
  /** @type {() => Sheet[]} */
  sheets() {
    const columns = this.labels.map((label) => number(label, ''));
    const differs = [...this.parts].sort((a, b) => b.apart.size - a.apart.size);
    const ends = this.isFlow ? ['from', 'to'] : ['who', 'what'];
    const differ = number('differ by', 'the greatest less the least; not there: 0');
    return [
      sheetOf(
        'Figures',
        [column('figure'), ...columns],
        this.figures.map(([name, values]) => ({ kind: '', cells: [name, ...values] }))
      ),
      sheetOf(
        this.isFlow ? 'Amounts' : 'Pairs of these plans',
        [...ends.map((end) => column(end)), ...columns, differ],
        differs.map((row) => ({
          kind: row.values.some((value) => value && value !== '0') ? '' : 'idle',
          cells: [...row.ends, ...row.values, row.apart.text],
        }))
      ),
    ];
  }

  // This method returns a line on how many routes or pairs differ, and one if the plans deliver
  // different amounts.
  /** @type {() => string[]} */
  lines() {
    const count = this.parts.filter((row) => row.apart.text !== '0').length;
    const words = this.isFlow
      ? ['amounts', 'deliver the same at each place'] : ['pairs', 'have each thing as often'];
    return [
      `${count} of ${this.parts.length} ${words[0]} differ.`,
      ...(this.isSame
        ? []
        : [`These plans don't ${words[1]}: mind that where you compare what they cost.`]),
    ];
  }

  // This method returns all of it as the table compare.csv of mcf_plan compare.
  /** @type {() => Csv & { name: string }} */
  table() {
    const heads = ['figure', ...(this.isFlow ? ['from', 'to'] : ['who', 'what']), ...this.labels];
    const word = this.isFlow ? 'carries' : 'pair';
    return {
      name: 'compare',
      heads,
      rows: [
        ...this.figures.map(([name, values]) => [name, '', '', ...values]),
        ...this.parts.map(({ ends, values }) => [word, ...ends, ...values]),
      ],
      like: { separator: this.mark === ',' ? ';' : ',', mark: false },
      figures: heads.map((_, k) => k).slice(3),
    };
  }
}

// This function returns how far numbers are apart, where one that isn't there is 0: as text, and
// about.
/** @type {(values: string[]) => { text: string, size: number }} */
function apart(values) {
  const exact = values.map((value) => (value ? exactOf(value) : ZERO));
  const decimals = decimalsOf(exact), wholes = exact.map((one) => scaled(one, decimals));
  const least = wholes.reduce((a, b) => (b < a ? b : a));
  const most = wholes.reduce((a, b) => (b > a ? b : a));
  return { text: decimalText(most - least, decimals), size: Number(most - least) / 10 ** decimals };
}
