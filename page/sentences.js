// @ts-check
// The sentences about faults of tables, by the words of an answer.
import { ZERO, compare, decimalText, exactOf, markIn } from './amounts.js';
import { at, countOf, listed, shown } from './faults.js';
import { nearTo } from './near.js';
import { LAST } from './periods.js';
import { spotsOf } from './spots.js';
import { LOOKED, Table, cellAt, escaped, fold } from './tables.js';
import { words } from './words.js';

/**
 * @typedef {import('./answer.js').Answer} Answer
 * @typedef {import('./faults.js').Faults} Faults
 * @typedef {import('./tables.js').TableText} TableText
 */

// The cells that forbid a pair.
export const FORBIDDEN = ['', 'x', '-', '–', '—'];

// The heads that each table needs.
/** @type {Record<string, string[]>} */
export const NEEDED = {
  places: ['name', 'supply'],
  routes: ['from', 'to', 'most', 'cost'],
  costs: ['who', 'what', 'cost'],
  groups: ['group'],
};
const WISHES =
  '; if these are wishes, call the column of the names who ({named}) and those of the wishes 1, 2 '
    + 'and so on, or write a list with a line who, what, cost for each wish';
const NUMBERED =
  '; the row that says how many persons each thing needs begins with needs, the column of how many '
    + 'things a person takes has the head takes';
const RANGE = /^[0-9]+ ?(\.\.|-|–) ?[0-9]+$/;
const TOO_GREAT = '{this} is beyond the limits, by itself or in total ({limits})';
// What is wrong, as the module calls it, perhaps with its column, and the sentence.
/** @type {Record<string, string>} */
const SENTENCES = {
  'quote not closed': "a quote that isn't closed",
  'text after a quote':
    'something after the closing quote (a quote within quotes is written twice)',
  'no such column':
    'there is no such column among {heads} (split at {separator}){below}; {like}the table needs '
      + '{needed}; {own}',
  nearly: 'there is no such column; is {meant} meant? Call it so, or otherwise',
  'not read without': "it isn't read, since there is no column {meant}",
  'two such columns': 'there are two such columns',
  'both decimal marks':
    'some decimals follow a point, others a comma: {other} and {cell}; write them in one way, '
      + '{orChoose}',
  'beyond the last head': 'a cell beyond the last head: {cell}',
  'empty name': 'the name is empty{merges}',
  'control character': 'the name {cell} has a line break or another control character',
  'named twice': 'a thing {cell} is already in column {place}',
  'named twice: name': 'a place {cell} is already on line {first}',
  'named twice: what': 'the pair of {pair} is already on line {first}',
  'named twice: 1': 'a person {cell} is already on line {first}',
  'named twice: who': 'a person {cell} is already on line {first}',
  'no such place': 'there is no place {cell}{near}',
  empty: 'the number is empty; write 0 for none',
  exponent: '{cell} is written with an exponent; write all its digits',
  'either of two numbers': '{cell} may be {digits} or a number with three decimals: {choose}',
  'other decimal mark': "{cell} isn't written with {mark} before decimals, {chosen}",
  'no number': '{cell} is no number{wishes}{range}',
  'too many digits': '{cell} has too many digits',
  'too great': TOO_GREAT,
  'beyond the limits': TOO_GREAT,
  'after a step without a limit': 'the step before is without a limit',
  'neither yes nor no': '{cell} is neither yes nor no',
  'falling cost':
    '{cell} is below the cost of the step before: units that get cheaper with more of them make '
      + 'no minimum-cost flow',
  'below 0': '{cell} is below 0, and this step adds to the one before',
  'below 0: most': '{cell} is below 0, and the route has more steps or is used both ways',
  'below 0: penalty': '{cell} is below 0',
  'below 0: keep most': '{cell} is below 0',
  'below 0: first stock': '{cell} is below 0',
  'below 0: last stock': '{cell} is below 0',
  'named twice in a period':
    'an earlier line of this place holds in this period, too; a line without a period holds in '
      + 'each',
  'no such period': 'there is no period {cell} in the table of places{near}',
  'no number of periods': '{cell} is no number of periods: write a whole number from 0 on',
  'not in the first period':
    'a first stock is there before the first period, and this line holds in a later one',
  'not in the last period':
    'a last stock is left after the last period, and this line holds in an earlier one',
  'arrives after the last period':
    'what departs by this line arrives after the last period: give it another period, or a '
      + 'smaller lead',
  'a penalty, but a supply above 0':
    'a penalty is the cost of what is missing, and this place sends: leave the cell empty; or '
      + 'is the sign of the supply wrong?{stockPenalty}',
  'no penalty, but other places have one':
    'this is empty, and other places have a penalty: give each place that takes one, '
      + '{ofAll}{stock}',
  'both ways with a least amount or a cost below 0':
    'a route that is used both ways has no least, and no cost below 0',
  'no limit, but a cost below 0':
    'this is empty, so without a limit, and a cost is below 0: a round trip could earn without '
      + 'end; give a most',
  'least above most': 'least {least} is greater than most {most}',
  'least above most: most': '{most} is below 0, and without a column least the least is 0',
  'no number or range': '{cell} is no number, and no range such as 2..3{date}',
  'two different numbers': 'an earlier line has another number: this is {cell}',
  'no column who or what':
    'there is no column who and no column what among {heads} (split at {separator}): each line '
      + 'names a person (who) or a thing (what) of a group',
  'no person or thing': 'the line names no person (who) and no thing (what)',
  'a person and a thing':
    'the line names a person and a thing: a group is of persons or of things, and a line has one '
      + 'of them',
  'not in the costs: who': 'there is no person {cell} in the costs{near}',
  'not in the costs: what': 'there is no thing {cell} in the costs{near}',
  'named twice in groups': 'the group has {cell} on line {first} already',
  'persons and things':
    '{cell} is of the other kind than an earlier line of the group: a group is of persons or of '
      + 'things',
  'no whole number': '{cell} is no whole number from 0 on',
  'least above most in groups': "the group's least is greater than its most",
  'crosses another group':
    '{cell} has some members of {crossed}, and not all: a minimum-cost flow keeps only to groups '
      + 'that have no member in common, or that are one within the other; {leaves} {cell} out, and '
      + 'says who breaks it',
  'too many places': 'with {cell}, there are too many persons, things and groups',
  'no group': 'there is no line below the heads, and so no group',
  'no thing': 'no thing {nothing}',
  'no person': 'no person {nothing}',
};
const NOTHING =
  'is read: the heads are {heads} (split at {separator}), with {lines} below; a list has the '
    + 'columns who, what and cost, a matrix things in its first line and persons in its first '
    + 'column';
// What is wrong with a title that isn't read, and the head that it is about.
const TITLE = /^(nearly|not read without) (.*)$/;
// A reminder of where the penalty of a last stock stands.
const STOCK_PENALTY = ' The penalty of a last stock stands on a line for the last period';
// The heads of numbers.
/** @type {Record<string, RegExp>} */
const NUMBERS = {
  places: /^(supply|least|most|cost|penalty|keep (most|cost)|(first|last) stock)$/,
  routes: /^(least|(most|cost)( [0-9]+)?|lead)$/,
  costs: /^cost$/,
  groups: /^(least|most)$/,
};

// This function returns faults, as an answer has them, of rows of a sheet of wishes whose person an
// earlier row has.
/** @type {(answer: Answer) => string[][]} */
function secondRows(answer) {
  /** @type {Map<string, number>} */
  const lines = new Map();
  /** @type {Map<number, string[]>} */
  const found = new Map();
  const isSheet = answer.rows('wishes').length > 0;
  for (const { line, cells: [who] } of isSheet ? answer.tables.get('costs').rows : []) {
    if (!lines.has(who)) lines.set(who, line);
    const fault = ['costs', String(line), 'who', 'named twice', who];
    if (lines.get(who) !== line) found.set(line, fault);
  }
  return [...found.values()];
}

// Tells the faults of an answer about texts, which have these words there.
export class Teller {
  /**
   * @param {Record<string, TableText>} texts
   * @param {Reading} reading
   * @param {Faults} faults
   * @param {string} [penalty]
   */
  constructor(texts, reading, faults, penalty = '') {
    this.texts = texts;
    this.reading = reading;
    this.faults = faults;
    this.penalty = penalty;
    this.tables = /** @type {Record<string, Table>} */ ({});
    this.shows = /** @type {NumberCell[]} */ ([]);
    this.done = new Set();
    this.crossed = /** @type {Map<string, string>} */ (new Map());
    this.hasWishes = false;
  }

  // This method notes all faults of an answer, and then positions of places that are no numbers.
  /** @type {(answer: Answer) => void} */
  tell(answer) {
    const found = [...answer.rows('fault'), ...secondRows(answer)];
    if (!found.length) return;
    this.crossed = new Map(answer.rows('crossing').map(([line, , other]) => [line, other]));
    this.hasWishes = answer.rows('wishes').length > 0;
    for (const [word, text] of Object.entries(this.texts)) {
      const read = answer.tables.get(word) || { headLine: 1, titles: [''], rows: [] };
      this.tables[word] = new Table(text, read);
    }
    this.shows = [...numberCells(this.tables)].filter(({ cell }) => markIn(cell));
    for (const [word, ...more] of found) {
      if (word === 'options' || (!word && this.penalty)) {
        const text = TOO_GREAT.replace('{this}', 'this').replace('{limits}', words().limits);
        this.faults.add(at(words().penalty(this.penalty), 0), more[2], text);
      } else this.note([word || 'places', ...more]);
    }
    if (this.tables.places) spotsOf(this.tables.places, this.faults);
  }

  // This method notes a fault. The first one of a kind tells all; of columns that a table lacks,
  // too. A fault of a cell counts once, in whichever periods it is. The head may be spelled as the
  // table has it; a sheet of wishes has no column of things.
  /** @type {(fault: string[]) => void} */
  note([word, line, head, what, read, period = '']) {
    const [column, cell] = this.located(word, line, fold(head), what, read);
    const isLacking = what === 'no such column', isNumber = /^[0-9]+$/.test(column);
    const here = [word, line, what, column].join('\n');
    if (period && this.done.has(here)) return;
    this.done.add(here);
    const kind = [word, what, isLacking || isNumber || column].join('\n');
    const isFirst = this.done.size < this.done.add(kind).size;
    if (isLacking && !isFirst) return;
    const text = isFirst
      ? this.text(word, line, column, what, cell)
        + (period && period !== LAST ? ` (in period ${shown(period)})` : '')
      : '';
    const shownColumn = this.hasWishes && column === 'what' ? '' : column;
    this.faults.add(at(this.texts[word].name, Number(line), shownColumn), what, text, cell);
  }

  // This method returns the cells of a row. Of those that share a line, as wishes do, it is the
  // first with a cell below a head, if there is one.
  /** @type {(word: string, line: string, head: string, cell: string) => string[]} */
  row(word, line, head, cell) {
    const { heads, rows } = this.tables[word], place = heads.indexOf(head);
    const mine = rows.filter((row) => row.line === Number(line)).map(({ cells }) => cells);
    return mine.find((cells) => cellAt(cells, place) === cell) || mine[0] || [];
  }

  // This method returns the column and the cell of a fault. One of steps is in the first step that
  // costs less than the one before, or whose most is below 0; a mark may stand in a column about
  // periods, told by its place.
  /** @type {(word: string, line: string, head: string, what: string, cell: string) => string[]} */
  located(word, line, head, what, cell) {
    const table = this.tables[word], takes = table.heads.indexOf('takes');
    if (TITLE.test(what)) return [shown(cell).slice(1, -1), cell];
    if (what === 'both decimal marks' && word !== 'costs') {
      return [table.heads[Number(head) - 1] || head, cell];
    }
    if (what === 'least above most' && word !== 'groups' && !table.has(['least'])) {
      return ['most', cell];
    }
    if (!['falling cost', 'below 0'].includes(what)) {
      return [takes > 0 && head === String(takes + 1) ? 'takes' : head, cell];
    }
    const columns = table.heads.map((_, k) => (k ? `${head} ${k + 1}` : head));
    const cells = table.reader(columns)(this.row(word, line, head, cell));
    const mark = this.reading.decimal || (this.shows.length ? markIn(this.shows[0].cell) : '.');
    const values = cells.map((one) => exactOf(one, mark));
    const place = values.findIndex((value, k) =>
      compare(value, what === 'below 0' ? ZERO : values[k - 1] || value) < 0
    );
    return [columns[place], cells[place]];
  }

  // This method returns the sentence about a fault.
  /** @type {(word: string, line: string, column: string, whole: string, cell: string) => string} */
  text(word, line, column, whole, cell) {
    const [, what, meant] = TITLE.exec(whole) || [whole, whole, ''], table = this.tables[word];
    const row = this.row(word, line, column, cell);
    /** @type {Record<string, string[]>} */
    const several = word === 'groups'
      ? { who: ['group', 'who'], what: ['group', 'what'] }
      : { what: ['who', 'what'], most: ['least', 'most'], 1: table.heads.slice(0, 1) };
    const under = (/** @type {string[]} */ one) => filled(table, several[column] || [column], one);
    const same = (/** @type {string[]} */ one) => under(one).join('\n') === under(row).join('\n');
    /** @type {Record<string, any>} */
    const parts = {
      ...words(),
      cell: shown(cell),
      this: (cell ? [cell] : under(row)).map(shown).join(' or ') || 'this',
      pair: under(row).map(shown).join(' and '),
      first: () => table.rows.find(({ cells }) => same(cells)).line,
      place: table.titles.indexOf(cell, 1) + 1,
      least: filled(table, ['least'], row).map(shown).join('') || '0',
      most: filled(table, ['most'], row).map(shown).join(' + '),
      digits: cell.replace(/[.,]/g, ''),
      mark: shown(this.reading.decimal || '.'),
      other: () => this.shows.filter((one) => markIn(one.cell) !== markIn(cell))
        .map((one) => `${shown(one.cell)} (${one.table.name}, line ${one.line})`)[0],
      near: () => nearTo(cell, this.names(column), fold)
        .map((one) => `; is ${shown(one)} meant?`)[0],
      crossed: () => shown(this.crossed.get(line)),
      date: /[0-9]{4}-|\.\s?\w{3}/.test(cell) ? '; was it taken for a date?' : '',
      merges: () => this.merged(word, Number(line), column),
      wishes: () => this.wishes(word),
      range: word === 'costs' && !isList(table) && RANGE.test(cell) ? NUMBERED : '',
      stock: table.reader([LAST])(row)[0] ? '; a last stock is a demand, too' : '',
      stockPenalty: table.reader([LAST])(row)[0] ? STOCK_PENALTY : '',
      meant: shown(meant),
      heads: listed(table.titles.map(shown)),
      separator: shown(table.separator),
      lines: countOf(table.rows.length, 'line', 'lines'),
      below: () => this.lineWith(word),
      like: () => this.looksLike(word),
      needed: NEEDED[word].join(', '),
    };
    const keys = [`${what} in ${word}`, `${what}: ${column}`, what];
    const sentence = SENTENCES[keys.find((key) => SENTENCES[key])] || what;
    return sentence.replace('{nothing}', NOTHING).replace(/\{(\w+)\}/g, (_, name) =>
      (typeof parts[name] === 'function' ? parts[name](column) || '' : parts[name])
    );
  }

  // This method returns the names of the places or the periods, or of the persons (who) or the
  // things (what).
  names(head = 'name') {
    const isMember = head === 'who' || head === 'what';
    const table = this.tables[isMember ? 'costs' : 'places'];
    if (isMember && !isList(table)) {
      return head === 'what' ? table.titles.slice(1) : table.rows.map(({ cells }) => cells[0]);
    }
    const read = table.reader([isMember || head === 'period' ? head : 'name']);
    return [...new Set(table.rows.map(({ cells }) => read(cells)[0]).filter(Boolean))];
  }

  // This method returns a hint at a line below the heads that has those which the table needs; or,
  // below a title, at one that may have the heads, since it has as many words and no number.
  /** @type {(word: string) => string} */
  lineWith(word) {
    const ends = new RegExp(`[${escaped(this.texts[word].separators)}"]`), needed = NEEDED[word];
    const isTitle = this.tables[word].titles.filter(Boolean).length < needed.length;
    for (const { line, cells } of this.tables[word].rows.slice(0, LOOKED)) {
      const found = cells.join(',').split(ends).map((one) => one.trim()).filter(Boolean);
      const there = found.map(fold);
      if (needed.every((head) => there.includes(head))) {
        return `, but in line ${line}: make that the first line`;
      }
      if (isTitle && found.length >= needed.length && found.every((one) => /\p{L}/u.test(one))) {
        const heads = found.map((one) => shown(this.texts[word].own.get(one) ?? one));
        return `; perhaps line ${line} has the heads: ${listed(heads)}`;
      }
    }
    return '';
  }

  // This method returns a hint at what a table without its columns may be.
  /** @type {(word: string) => string} */
  looksLike(word) {
    if (word === 'places' && this.tables.places.has(['from', 'to'])) {
      return 'this looks like the table of routes, which comes second; ';
    }
    return word === 'routes' ? this.matrix() : '';
  }

  // This method returns a hint at a matrix of costs from places to the same ones, whose names
  // aren't those of the table of places, and at a column there that has them.
  matrix() {
    const { routes, places } = this.tables, names = this.names();
    const heads = routes.titles.slice(1).filter(Boolean);
    const lefts = new Set(routes.rows.map(({ cells }) => cells[0]));
    const isMatrix = !NEEDED.routes.some((head) => routes.heads.includes(head))
      && heads.length > 1 && 2 * heads.filter((head) => lefts.has(head)).length >= heads.length;
    if (!isMatrix) return '';
    const other = heads.find((head) => !names.includes(head)) || '';
    const column = places.titles.find((_, place) =>
      places.rows.some(({ cells }) => cellAt(cells, place) === other)
    );
    const told = column === undefined ? '' : `, which stands in column ${column}`;
    return `this looks like a matrix, but no place has the name ${shown(other)}${told}; `;
  }

  // This method returns a hint at merged cells, if a cell above in the column has a name, which may
  // stand there several times.
  /** @type {(word: string, line: number, column: string) => string} */
  merged(word, line, column) {
    const { heads, titles, rows } = this.tables[word], place = heads.indexOf(column);
    return column !== 'name' && rows.some((row) => row.line < line && cellAt(row.cells, place))
      ? `; if cells are merged in the spreadsheet, ${words().merged(shown(titles[place]))}`
      : '';
  }

  // This method returns a hint at a sheet of wishes, if most filled cells of a matrix are words.
  /** @type {(word: string) => string} */
  wishes(word) {
    const table = this.tables[word];
    const cells = table.rows.flatMap((row) => row.cells.slice(1))
      .filter((cell) => !FORBIDDEN.includes(fold(cell)));
    const count = cells.filter((cell) => /^\p{L}/u.test(cell)).length;
    return word === 'costs' && !isList(table) && 2 * count > cells.length
      ? WISHES.replace('{named}', words().named('who', 'NAME'))
      : '';
  }
}

// This function returns the filled cells of a row below these heads, and below those of further
// steps.
/** @type {(table: Table, wanted: string[], row: string[]) => string[]} */
const filled = ({ heads }, wanted, row) => row.filter((cell, k) =>
  cell && k < heads.length && wanted.includes(heads[k].replace(/^(most|cost) [0-9]+$/, '$1'))
);

// This function says whether a table of persons and things is a list, and no matrix.
/** @type {(table: Table) => boolean} */
export const isList = ({ heads }) => NEEDED.costs.filter((head) => heads.includes(head)).length > 1;

// This function returns the cells of numbers, row by row.
/** @type {(tables: Record<string, Table>) => Generator<NumberCell>} */
export function* numberCells(tables) {
  for (const [word, table] of Object.entries(tables)) {
    const isMatrix = word === 'costs' && !isList(table);
    const places = table.heads.map((_, k) => k)
      .filter((k) => (isMatrix ? k : NUMBERS[word].test(table.heads[k])));
    for (const { line, cells } of table.rows) {
      for (const place of places) yield { table, line, cell: cellAt(cells, place) };
    }
  }
}

// This function says how a cell was read which could be another number. It gets that cell, and the
// first one that shows the mark, or no cells.
/** @type {(cells: NumberCell[], mark: string | null, reading: Reading) => string[]} */
export function readLine([either, shows], mark, reading) {
  if (!either) return [];
  const { digits, decimals } = exactOf(either.cell, mark);
  const read = `${shown(either.cell)} (${either.table.name}, line ${either.line}) is read as `
    + decimalText(digits, decimals);
  return [
    reading.decimal || !shows
      ? `${read}, ${words().chosen}.`
      : `${read}, since ${shown(shows.cell)} (${shows.table.name}, line ${shows.line}) has `
        + `decimals after ${shown(mark)}.`,
  ];
}
