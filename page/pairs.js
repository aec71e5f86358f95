// @ts-check
// Persons and things: which pairs an answer chooses, or who competes.
import { Said, Units, decimalsOf, exactOf, scaled, settledBy } from './amounts.js';
import { TOLD_NAMES, countOf, listed } from './faults.js';
import { groupLines, idleLines, leftOutLines } from './groups.js';
import { carriedLines, carriedOf, otherwiseLines } from './heads.js';
import { partsOf } from './network.js';
import { FORBIDDEN, NEEDED, isList, numberCells, readLine } from './sentences.js';
import { Table, alikeLines, cellAt, fold, notesOf } from './tables.js';
import { words } from './words.js';

/**
 * @typedef {import('./answer.js').Answer} Answer
 * @typedef {import('./tables.js').TableText} TableText
 */

const GROUP_HEADS = ['group', 'who', 'what', 'least', 'most'];

// What an answer says of a table of persons and things. The table is plain if it doesn't say how
// many a person takes or a thing needs.
export class Roster {
  /**
   * @param {Answer} answer
   * @param {TableText[]} texts of costs, and perhaps of groups
   * @param {Choices} choices
   */
  constructor(answer, [text, groups], { reading, each, maximise }) {
    this.answer = answer;
    this.reading = reading;
    this.maximise = maximise;
    this.each = each;
    this.mark = answer.mark;
    this.notes = notesOf(groups ? [text, groups] : [text]);
    this.table = new Table(text, answer.tables.get('costs'));
    this.groupTable = groups ? new Table(groups, answer.tables.get('groups')) : null;
    this.isList = isList(this.table);
    this.isPlain = !this.isFilled('takes') && !(this.isList && this.isFilled('needs'));
    /** @type {Map<string, number>} */
    this.persons = new Map();
    /** @type {Map<string, number>} */
    this.things = new Map();
    /** @type {[who: string, what: string][]} */
    this.allowed = [];
    if (this.isList) this.readList();
    else this.readMatrix();
    const pairs = answer.rows('pair');
    const costs = pairs.map((cells) => exactOf(cells[4])), cost = exactOf(answer.number('cost'));
    this.units = new Units(0, decimalsOf([...costs, cost]));
    this.said = new Said(this.units, this.mark);
    this.cost = scaled(cost, this.units.costs);
    // The wishes of a person share a line.
    const key = (/** @type {number} */ line, /** @type {string} */ what) => `${line} ${what}`;
    const whatOf = this.table.reader(this.isList ? ['what'] : []);
    const rows = new Map(
      this.table.rows.map(({ line, cells }) => [key(line, whatOf(cells)[0] ?? ''), cells])
    );
    /** @type {ChosenPair[]} */
    this.pairs = pairs.map(([line, , who, what], k) => ({
      who,
      what,
      cost: scaled(costs[k], this.units.costs),
      cells: rows.get(key(Number(line), this.isList ? what : '')),
    })).sort((a, b) =>
      this.persons.get(a.who) - this.persons.get(b.who)
      || this.things.get(a.what) - this.things.get(b.what)
    );
  }

  // This method reads the names of a list, and the pairs that it allows.
  readList() {
    const read = this.table.reader(NEEDED.costs);
    for (const { cells } of this.table.rows) {
      const [who, what, cost] = read(cells);
      this.allow(who, what, cost);
    }
  }

  // This method reads the names of a matrix, and the pairs that it allows.
  readMatrix() {
    const { rows, titles, heads } = this.table;
    for (const { cells } of rows) {
      if (fold(cells[0]) === 'needs') this.isPlain = this.isPlain && !cells.slice(1).some(Boolean);
      else {
        titles.forEach((what, place) => {
          if (place && what && heads[place] !== 'takes') {
            this.allow(cells[0], what, cellAt(cells, place));
          }
        });
      }
    }
  }

  // This method notes a person and a thing, and their pair if the cell of its cost doesn't forbid
  // it.
  /** @type {(who: string, what: string, cost: string) => void} */
  allow(who, what, cost) {
    if (!this.persons.has(who)) this.persons.set(who, this.persons.size);
    if (!this.things.has(what)) this.things.set(what, this.things.size);
    if (!FORBIDDEN.includes(fold(cost))) this.allowed.push([who, what]);
  }

  // This method returns the persons with a number of things that they take.
  numbered() {
    const { heads } = this.table;
    const takes = heads.indexOf('takes'), who = this.isList ? heads.indexOf('who') : 0;
    const rows = this.table.rows.filter(({ cells }) => cellAt(cells, takes));
    return new Set(rows.map(({ cells }) => cellAt(cells, who)));
  }

  // This method says whether a cell below a head isn't empty.
  /** @type {(head: string) => boolean} */
  isFilled(head) {
    const read = this.table.reader([head]);
    return this.table.rows.some(({ cells }) => read(cells)[0]);
  }

  // This method returns lines on how the table was read, beside sums by columns at some places. A
  // matrix has no unused columns.
  told(by = /** @type {number[]} */ ([])) {
    const known = [...NEEDED.costs, 'takes', 'needs'], cells = numberCells({ costs: this.table });
    const carried = this.isList ? carriedOf(this.table, known, by) : [];
    return [
      ...this.notes,
      ...alikeLines('persons', [...this.persons.keys()]),
      ...alikeLines('things', [...this.things.keys()]),
      ...idleLines(this),
      ...carriedLines([
        ...carried,
        ...(this.groupTable ? carriedOf(this.groupTable, GROUP_HEADS, []) : []),
      ]),
      ...otherwiseLines('costs', carried, this.table, Boolean(this.groupTable)),
      ...readLine(settledBy(cells, this.mark), this.mark, this.reading),
    ];
  }

  // This method returns the competitions of an answer: of those that it names, or of all others,
  // whichever are fewer. What no pair connects is told by itself, if it competes by itself.
  //
  // The others compete, too, if there are as many persons as things, and one for each: then all of
  // both sides must be in a pair.
  /** @type {() => Rivals[]} */
  rivals() {
    const { answer, persons, things } = this;
    const side = /** @type {SendOrTake} */ (answer.number('side'));
    const [mine, yours] = ['person', 'thing'].map((word) =>
      new Map(answer.rows(word).map(([, name, number]) => [name, BigInt(number)]))
    );
    const groups = answer.rows('group').map(([, group, , name, number, word]) => (
      { group, name, number: BigInt(number), isLeast: word === 'least' }
    ));
    if (groups.length) return [this.within(side, mine, yours, groups)];
    /** @type {Record<string, Rivals[]>} */
    const choices = { [side]: this.parts(side, mine, yours) };
    if (this.isPlain && persons.size === things.size) {
      /** @type {(all: Map<string, number>, told: Map<string, bigint>) => Map<string, bigint>} */
      const rest = (all, told) =>
        new Map([...all.keys()].filter((name) => !told.has(name)).map((name) => [name, 1n]));
      const other = side === 'send' ? 'take' : 'send';
      choices[other] = this.parts(other, rest(persons, mine), rest(things, yours));
    }
    const count = (/** @type {Rivals[]} */ found) => found.reduce(
      (sum, one) => sum + one.musts.length + limiting(one).rivals.length,
      0
    );
    const { send = [], take = [] } = choices;
    return !send.length || (take.length && count(take) < count(send)) ? take : send;
  }

  // This method returns the competition of an answer in which groups take part.
  /**
   * @param {SendOrTake} side
   * @param {Map<string, bigint>} persons
   * @param {Map<string, bigint>} things
   * @param {RivalGroup[]} groups
   * @returns {Rivals}
   */
  within(side, persons, things, groups) {
    const all = [...persons, ...things], every = new Set(all.map((_, k) => k + 1));
    const found = this.rivalry(side, all, persons.size, every);
    const sum = (/** @type {Rival[]} */ rivals) =>
      rivals.reduce((total, { number }) => total + number, 0n);
    return {
      ...found,
      pairs: this.pairs,
      groups,
      must: found.must + sum(groups.filter(({ isLeast }) => isLeast)),
      can: sum(found.cans) + BigInt(this.pairs.length)
        + sum(groups.filter(({ isLeast }) => !isLeast)),
    };
  }

  // This method returns the competitions among persons and things, which come with their numbers.
  /**
   * @param {SendOrTake} side
   * @param {Map<string, bigint>} persons
   * @param {Map<string, bigint>} things
   * @returns {Rivals[]}
   */
  parts(side, persons, things) {
    const all = [...persons, ...things], places = [...things.keys()];
    const number = new Map(places.map((name, k) => [name, persons.size + k + 1]));
    const own = new Map([...persons.keys()].map((name, k) => [name, k + 1]));
    const ends = this.allowed
      .filter(([who, what]) => own.has(who) && number.has(what))
      .map(([who, what]) => ({ tail: own.get(who), head: number.get(what) }));
    return partsOf(all.map((_, k) => k + 1), ends)
      .map((part) => this.rivalry(side, all, persons.size, part))
      .filter(({ must, can }) => must > can);
  }

  // This method returns the competition of those with these numbers, persons first.
  /**
   * @param {SendOrTake} side
   * @param {[string, bigint][]} all
   * @param {number} count
   * @param {Set<number>} part
   * @returns {Rivals}
   */
  rivalry(side, all, count, part) {
    const numbers = [...part].sort((a, b) => a - b), isSend = side === 'send';
    /** @type {(isPerson: boolean) => Rival[]} */
    const of = (isPerson) => numbers
      .filter((k) => (k <= count) === isPerson)
      .map((k) => ({ name: all[k - 1][0], number: all[k - 1][1] }));
    const musts = of(isSend).filter(({ number }) => number), cans = of(!isSend);
    const names = new Set(of(isSend).map(({ name }) => name));
    const pairs = this.pairs.filter(({ who, what }) => names.has(isSend ? who : what));
    const sum = (/** @type {Rival[]} */ rivals) =>
      rivals.reduce((total, { number }) => total + number, 0n);
    const can = sum(cans) + BigInt(pairs.length);
    return { side, musts, cans, pairs, groups: [], must: sum(musts), can };
  }
}

// This function returns who limits a competition: those with the greatest number of each, and
// pairs, which count one each. Several pairs with the same one count together.
/** @type {(found: Rivals) => { rivals: Rival[], pairs: ChosenPair[] }} */
function limiting({ side, cans, pairs }) {
  const end = side === 'send' ? 'what' : 'who', rivals = [...cans];
  const names = new Set(pairs.map((pair) => pair[end]));
  const alone = [];
  for (const name of names) {
    const same = pairs.filter((pair) => pair[end] === name);
    if (same.length > 1) rivals.push({ name, number: BigInt(same.length) });
    else alone.push(same[0]);
  }
  return { rivals, pairs: alone };
}

// This function says that persons, things and groups allow no choice together.
/** @type {(found: Rivals) => string} */
function groupsSentence(found) {
  const { musts, groups, must, can } = found, { rivals, pairs } = limiting(found);
  /** @type {(isLeast: boolean) => Rival[]} */
  const bounds = (isLeast) => groups
    .filter((one) => one.isLeast === isLeast)
    .map(({ group, name, number }) => ({ name: `${group} of ${name}`, number }));
  const told = (/** @type {Rival[]} */ all) => all.map(({ name, number }) => `${name} (${number})`);
  const cans = [
    ...told([...rivals, ...bounds(false)]),
    ...pairs.map(({ who, what }) => `${who} with ${what}`),
  ];
  return `No choice keeps to these together: at least ${must} for `
    + `${listed(told([...musts, ...bounds(true)]))}; at most ${can}`
    + `${cans.length ? ` by ${listed(cans)}` : ''}. Short by ${must - can}.`;
}

// This function says that persons compete for too few things, or that things compete for too few
// persons.
/** @type {(found: Rivals) => string} */
export function rivalsSentence(found) {
  const { side, musts, must, can } = found, { rivals, pairs } = limiting(found);
  const names = musts.map(({ name }) => name), others = rivals.map(({ name }) => name);
  const isSend = side === 'send';
  if (found.groups.length) return groupsSentence(found);
  if (!rivals.length && !pairs.length) {
    return isSend ? `${listed(names)} can get nothing.` : `Nobody may do ${listed(names)}.`;
  }
  if (!pairs.length && [...musts, ...rivals].every(({ number }) => number === 1n)) {
    return isSend
      ? `${musts.length} persons compete for ${countOf(rivals.length, 'thing', 'things')}: `
        + `${listed(names)} can only get ${listed(others)}.`
      : `${musts.length} things compete for ${countOf(rivals.length, 'person', 'persons')}: `
        + `only ${listed(others)} may do ${listed(names)}.`;
  }
  const parts = [
    ...rivals.map(({ name, number }) => `${name} (${number})`),
    ...pairs.map(({ who, what }) => `${who} with ${what}`),
  ];
  const verbs = isSend
    ? ['must take', 'can take']
    : [musts.length > 1 ? 'need' : 'needs', 'can get'];
  return `${listed(names)} ${verbs[0]} ${must}${musts.length > 1 ? ' together' : ''}, `
    + `and ${verbs[1]} only ${can}: ${listed(parts)}. Short by ${must - can}.`;
}

// This function returns the table of those that compete. In each part, column must adds up to what
// must be taken (or given), and column can to what can be.
/** @type {(roster: Roster, rivals: Rivals[]) => SavedTable} */
export function rivalsTable(roster, rivals) {
  const rows = rivals.flatMap((found, k) => {
    const kinds = found.side === 'send' ? ['person', 'thing'] : ['thing', 'person'];
    const count = String(k + 1), limits = limiting(found);
    return [
      ...found.musts.map(({ name, number }) => [count, kinds[0], name, number, '']),
      ...limits.rivals.map(({ name, number }) => [count, kinds[1], name, '', number]),
      ...limits.pairs.map(({ who, what }) => [count, 'pair', `${who}, ${what}`, '', '1']),
      ...found.groups.map(({ group, name, number, isLeast }) => [
        ...[count, 'group', `${group}, ${name}`],
        ...(isLeast ? [String(number), ''] : ['', String(number)]),
      ]),
    ];
  });
  return {
    name: 'bottleneck',
    like: roster.table,
    heads: ['bottleneck', 'kind', 'name', 'must', 'can'],
    rows,
    figures: [0, 3, 4],
  };
}

// This function returns the chosen pairs. If the input is a list, it keeps the lines of the list.
/** @type {(roster: Roster) => SavedTable} */
export function pairsTable({ table, pairs, units, isList }) {
  if (isList) {
    const rows = pairs.map(({ cells }) => table.titles.map((_, place) => cellAt(cells, place)));
    return { name: 'pairs', like: table, heads: table.titles, rows, figures: [] };
  }
  const rows = pairs.map(({ who, what, cost }) => [who, what, units.rate(cost)]);
  return { name: 'pairs', like: table, heads: NEEDED.costs, rows, figures: [2] };
}

/** @type {(roster: Roster) => string[]} */
export function pairsSummary(roster) {
  const { pairs, maximise } = roster;
  const [which, word] = maximise
    ? ['Pairs of the greatest value', 'value']
    : ['Least-cost pairs', 'cost'];
  const lines = [
    `${which}, ${words().found}: ${word} ${roster.said.total(roster.cost)}.`,
    `${countOf(roster.persons.size, 'person', 'persons')}, `
      + `${countOf(roster.things.size, 'thing', 'things')}: `
      + `${countOf(pairs.length, 'pair', 'pairs')}.`,
  ];
  /** @type {[text: string, names: Map<string, number>, end: 'who' | 'what'][]} */
  const sides = [['Without a thing', roster.persons, 'who'], ['Left over', roster.things, 'what']];
  for (const [text, names, end] of sides) {
    const taken = new Set(pairs.map((pair) => pair[end]));
    const left = [...names.keys()].filter((name) => !taken.has(name));
    if (left.length) lines.push(`${text}: ${listed(left)}.`);
  }
  return [...lines, ...bothHint(roster), ...groupLines(roster)];
}

// This function returns a hint, if persons get nothing because no number of the table says that
// they must.
/** @type {(roster: Roster) => string[]} */
function bothHint(roster) {
  if (roster.isPlain || roster.each) return [];
  const { persons, pairs } = roster, taking = roster.numbered();
  for (const { who } of pairs) taking.add(who);
  const count = [...persons.keys()].filter((name) => !taking.has(name)).length;
  return count
    ? [
      `${countOf(count, 'person gets', 'persons get')} nothing, and no number of the table says `
        + `that they must: ${words().both} each gets one, if that can be.`,
    ]
    : [];
}

// This function explains why no such pairs exist.
/** @type {(roster: Roster, rivals: Rivals[]) => string[]} */
export function rivalsLines(roster, rivals) {
  const lines = [`No such pairs exist, ${words().none}:`];
  for (const found of rivals.slice(0, TOLD_NAMES)) lines.push(`  ${rivalsSentence(found)}`);
  lines.push(...leftOutLines(roster));
  return [...lines, ...eachHint(roster)];
}

// This function returns a hint, if there are more persons than things and each person must get one.
// Whether each thing can get one isn't known.
/** @type {(roster: Roster) => string[]} */
function eachHint(roster) {
  const isWho = roster.answer.number('side') === 'send' && roster.isPlain;
  return isWho && roster.each !== 'what' && roster.persons.size > roster.things.size
    ? [`${words().each}, if that can be, and persons may be left over.`]
    : [];
}
