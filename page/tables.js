// @ts-check
// Tables: their texts, from files or pasted, for the module; and their rows, as an answer repeats
// them.
import { BadTable, at, countOf, listed, shown } from './faults.js';
import { firstRow } from './cells.js';
import { words } from './words.js';

/** @typedef {import('./answer.js').Answer} Answer */
/** @typedef {import('./faults.js').Faults} Faults */

const SEPARATOR_LINE = /^"?sep=([^" \n])"?[^\S\n]*(?:\n|$)/i;
// The separators that heads show by themselves.
export const SEPARATORS = ',;\t';
// The names of each table, and what stands for one in a row of totals.
/** @type {Record<string, string[]>} */
const NAMES = { places: ['name'], routes: ['from', 'to'], costs: ['who', 'what'] };
const TOTALS = [
  'total', 'totals', 'sum', 'grand total', 'subtotal', 'gesamt', 'gesamtsumme', 'gesamtergebnis',
  'summe', 'insgesamt', 'zwischensumme',
];
// Heads are in one of this many lines.
export const LOOKED = 10;
// The first bytes of other kinds of files.
/** @type {[head: number[], words: string][]} */
const OTHER_FILES = [
  [[0x1f, 0x8b], 'this is compressed (gzip): unpack it first'],
  [[0xd0, 0xcf, 0x11, 0xe0], 'this is an old Excel workbook: save it as .xlsx, or as CSV UTF-8'],
  [[0x25, 0x50, 0x44, 0x46], 'this is a PDF; a table is a workbook or CSV'],
];
const ZIP = [0x50, 0x4b, 0x03, 0x04];

/** @type {(bytes: Uint8Array, head: number[]) => boolean} */
const begins = (bytes, head) => head.every((byte, k) => bytes[k] === byte);
/** @type {(text: string) => string} */
export const fold = (text) => text.toLowerCase();
// This function returns a cell of a row; empty if the row is too short or the column doesn't exist.
/** @type {(cells: string[], place: number) => string} */
export const cellAt = (cells, place) => (place >= 0 && place < cells.length ? cells[place] : '');

/** @type {(name: string, encoding: string) => BadTable} */
const notText = (name, encoding) => new BadTable([
  `${name}: this isn't text in ${encoding === 'utf-8' ? 'UTF-8' : encoding}; `
    + 'save the table as CSV in UTF-8',
]);

// This function returns a text, which has no zeros.
/** @type {(name: string, text: string, encoding: string) => string} */
function plainText(name, text, encoding) {
  if (text.includes('\0')) throw notText(name, encoding);
  return text;
}

// This function returns the text of a file. If it isn't UTF-8, it is read as Windows-1252 and
// marked as wrong.
/**
 * @param {string} name
 * @param {Uint8Array} bytes
 * @param {string | null} [encoding]
 * @returns {{ text: string, mark: boolean, wrong?: { line: number, text: string } }}
 */
export function textOf(name, bytes, encoding = null) {
  for (const [head, what] of OTHER_FILES) {
    if (begins(bytes, head)) throw new BadTable([`${name}: ${what}`]);
  }
  if (begins(bytes, ZIP)) {
    throw new BadTable([
      `${name}: this is a workbook: select a sheet's cells there, copy them and paste them here; `
        + 'or save it as CSV UTF-8',
    ]);
  }
  const isWide = begins(bytes, [0xff, 0xfe]) || begins(bytes, [0xfe, 0xff]);
  const named = isWide ? 'utf-16' : encoding || 'utf-8';
  try {
    const label = isWide && bytes[0] === 0xfe ? 'utf-16be' : named;
    return {
      text: plainText(name, new TextDecoder(label, { fatal: true }).decode(bytes), named),
      mark: isWide || begins(bytes, [0xef, 0xbb, 0xbf]),
    };
  } catch (error) {
    if (error instanceof BadTable || named !== 'utf-8') throw notText(name, named);
  }
  const text = withFeeds(plainText(name, new TextDecoder('windows-1252').decode(bytes), named));
  const decoded = withFeeds(new TextDecoder().decode(bytes));
  const line = decoded.slice(0, decoded.indexOf('\ufffd')).split('\n').length;
  const read = shown(text.split('\n')[line - 1].trim());
  const told = `this isn't in UTF-8, but perhaps in Windows-1252 (ANSI), which reads ${read}: `
    + `in Excel, save as CSV UTF-8; ${words().encoding}`;
  return { text, mark: false, wrong: { line, text: told } };
}

// This function writes cells as a line.
/** @type {(cells: string[], separator: string) => string} */
export const lineOf = (cells, separator) => cells.map((cell) => (
  /["\n\r]/.test(cell) || cell.includes(separator) ? `"${cell.replaceAll('"', '""')}"` : cell
)).join(separator);

/** @type {(text: string) => string} */
export const escaped = (text) => text.replace(/[\\^$.*+?()[\]{}|]/g, '\\$&');

/** @type {(text: string) => string} */
const withFeeds = (text) => text.replace(/\r\n?/g, '\n');

// This function returns the cells of a table of an answer that are names, row by row; none if it
// lacks a column of names.
/** @type {(answer: Answer, word: string) => string[]} */
function namesIn(answer, word) {
  const read = answer.tables.get(word), heads = read ? read.titles.map(fold) : [];
  const places = (NAMES[word] || []).map((head) => heads.indexOf(head));
  return !read || places.includes(-1)
    ? []
    : read.rows.flatMap(({ cells }) => places.map((place) => cellAt(cells, place)));
}

// A text for the module, in normal form C, with a line feed at the end of each line. `own` has the
// planner's titles by the heads that replace them in the text; `changes` say what an answer
// changed.
export class TableText {
  /**
   * @param {Source} source
   * @param {Reading} reading
   * @param {Faults} faults
   */
  constructor({ name, text, bytes }, reading, faults) {
    const read = bytes
      ? textOf(name, bytes, reading.encoding)
      : { text, mark: false, wrong: null };
    this.name = name;
    this.mark = read.mark;
    this.text = withFeeds(read.text).replace(/^\ufeff+/, '').normalize('NFC');
    /** @type {Map<string, string>} */
    this.own = new Map();
    /** @type {string[]} */
    /** @type {string[]} */
    this.changes = [];
    this.isListed = false;
    if (!this.text.trim()) {
      throw new BadTable([
        `${name}, line 1: the table is empty; its first line has the heads of the columns`,
      ]);
    }
    if (read.wrong) faults.add(at(name, read.wrong.line), 'encoding', read.wrong.text);
    const named = SEPARATOR_LINE.exec(this.text.trimStart());
    this.separators = SEPARATORS + (named ? named[1] : '');
  }

  // This method returns the lines among which the heads are, from 0.
  headLines() {
    const filled = new RegExp(`[^\\s"${escaped(this.separators)}]`);
    return this.text.split('\n').map((line, k) => (filled.test(line) ? k : -1))
      .filter((k) => k >= 0).slice(0, LOOKED);
  }

  // This method gives columns with titles of the planner's their wanted heads, each in the first
  // line that has its title, and columns that have one of these heads another one. It returns the
  // heads whose titles no line has.
  /** @type {(titles: [head: string, title: string][]) => string[]} */
  call(titles) {
    const lines = this.text.split('\n'), missing = [];
    /** @type {Map<number, string[][]>} */
    const found = new Map(), among = this.headLines();
    for (const [head, title] of titles) {
      const field = this.fieldOf([title]), k = among.find((one) => lines[one].search(field) >= 0);
      if (k === undefined) missing.push(head);
      else found.set(k, [...found.get(k) || [], [title, head]]);
    }
    for (const [k, named] of found) {
      const others = named.map(([, head]) => [head, `own ${head}`]);
      lines[k] = this.renamed(lines[k], [...named, ...others]);
    }
    this.text = lines.join('\n');
    return missing;
  }

  // This method returns the pattern of a field that is one of some titles, perhaps between quotes.
  /** @type {(titles: string[]) => RegExp} */
  fieldOf(titles) {
    const plain = titles.map((title) => escaped(title.normalize('NFC').replaceAll('"', '""')));
    const ends = `[${escaped(this.separators)}]`, blanks = '[ \\u00a0]*';
    const quote = `${blanks}"?${blanks}`, any = plain.map((one) => `(${one})`).join('|');
    return new RegExp(`(^|${ends})(${quote})(?:${any})(?=${quote}(?:${ends}|$))`, 'giu');
  }

  // This method returns a line whose fields of some titles are other heads.
  /** @type {(line: string, named: string[][]) => string} */
  renamed(line, named) {
    return line.replace(this.fieldOf(named.map(([title]) => title)), (_, end, before, ...found) => {
      const k = found.findIndex((title) => title !== undefined), [, head] = named[k];
      this.own.set(head, found[k].replaceAll('""', '"'));
      return end + before + head;
    });
  }

  // This method returns the separator by which the text has these titles. That of a matrix or of a
  // sheet of wishes splits its heads into most.
  /** @type {(read: AnsweredTable) => string} */
  separator({ headLine, titles }) {
    if (this.isListed) return this.splitOf(headLine).mark;
    const text = this.text.split('\n').slice(headLine - 1).join('\n');
    const known = [...this.separators.slice(SEPARATORS.length) + SEPARATORS];
    return known.map(escaped).find((mark) => {
      const blanks = `[^\\S${mark}]*`;
      const heads = titles.map((title) => [title.replaceAll('"', '""'), title].map(escaped))
        .map(([inside, plain]) => `${blanks}(?:"\\s*${inside}\\s*"|${plain})${blanks}`);
      return new RegExp(`^${heads.join(mark)}(?![^\\r\\n])`).test(text);
    })?.slice(-1) || ',';
  }

  // This method returns the cells of the row that begins in a line, by the separator that splits it
  // into most.
  /** @type {(line: number) => { mark: string, cells: string[] }} */
  splitOf(line) {
    const text = this.text.split('\n').slice(line - 1).join('\n');
    return [...this.separators].map((mark) => ({ mark, cells: firstRow(text, mark) }))
      .reduce((most, one) => (one.cells.length > most.cells.length ? one : most));
  }

  // This method notes what an answer changed in the table, which has this word there, before it was
  // read: a matrix or a sheet of wishes became a list, a row of totals was left out, columns were
  // filled down. Columns come as the planner names them, by their heads in small letters.
  /** @type {(word: string, answer: Answer, columns: Map<string, string>) => void} */
  change(word, answer, columns) {
    const mine = (/** @type {string} */ kind) =>
      answer.rows(kind).filter(([name]) => name === word);
    this.isListed = mine('list').length + mine('wishes').length > 0;
    this.changes = [
      ...mine('list').map(([, count]) =>
        `${this.name} is a matrix: it is read as a list of `
          + `${countOf(Number(count), 'route', 'routes')} without a limit, from the places on the `
          + 'left to those above.'
      ),
      ...mine('wishes').flatMap(([, count, needs]) => [
        `${this.name} is a sheet of wishes: it is read as a list of `
          + `${countOf(Number(count), 'wish', 'wishes')}, of which a first one costs 1, a second `
          + 'one 2 and so on.',
        needs
          ? `The number ${shown(needs)} of column needs holds for each thing.`
          : 'No column needs says how many persons a thing takes, such as 0..28: each takes one.',
      ]),
      ...mine('left out').map(([, line]) =>
        `${this.name}, line ${line} is left out: it has the sums of the lines above `
          + `(${listed(this.splitOf(Number(line)).cells.filter(Boolean).map(shown))}).`
      ),
      ...mine('filled').filter(([, , count]) => count !== '0').map(([, head, count]) =>
        `${this.name}, column ${columns.get(fold(head)) ?? head}: `
          + `${countOf(Number(count), 'empty cell takes', 'empty cells take')} the value above.`
      ),
      ...this.unsummed(word, answer),
    ];
  }

  // This method returns a line on a last row that may be one of totals, and isn't left out, since
  // its numbers aren't the sums of those above.
  /** @type {(word: string, answer: Answer) => string[]} */
  unsummed(word, answer) {
    const rows = answer.tables.get(word)?.rows || [], names = namesIn(answer, word);
    if (rows.length < 2 || !names.length) return [];
    const { line, cells } = rows[rows.length - 1], own = names.slice(-NAMES[word].length);
    const others = new Set([
      ...names.slice(0, -own.length),
      ...Object.keys(NAMES).filter((one) => one !== word).flatMap((one) => namesIn(answer, one)),
    ]);
    const filled = own.filter(Boolean);
    const isTotal = filled.length
      && filled.every((name) => TOTALS.includes(fold(name)) && !others.has(name));
    const told = listed(cells.filter(Boolean).map(shown));
    return isTotal
      ? [
        `${this.name}, line ${line} may be a row of totals (${told}), but its numbers aren't the `
          + 'sums of those above: make them so, or remove it.',
      ]
      : [];
  }

  bytes() { return new TextEncoder().encode(this.text); }
}

// This function returns the texts of some sources, with the wanted heads in place of the planner's
// own, and notes faults of these. The texts are of places and routes, or of pairs.
/**
 * @param {Source[]} sources
 * @param {Reading} reading
 * @param {Faults} faults
 * @returns {TableText[]}
 */
export function textsOf(sources, reading, faults) {
  const texts = sources.map((source) => new TableText(source, reading, faults));
  const last = texts[texts.length - 1], titles = Object.entries(reading.heads || {});
  const missing = texts.map((text) => text.call(titles));
  for (const [head, own] of titles) {
    if (!missing.every((heads) => heads.includes(head))) continue;
    const nor = texts.slice(0, -1).map(({ name }) => `, nor in ${name}`).join('');
    const told = `there is no such column, ${words().names(head, own)}${nor}`;
    faults.add(at(last.name, 1, own), 'map', told);
  }
  return texts;
}

// This function returns the head in texts of a column that the planner names by its title or head.
/** @type {(texts: TableText[], column: string) => string} */
export function headIn(texts, column) {
  const named = column.normalize('NFC').trim();
  const owned = texts.flatMap((text) => [...text.own]);
  return (owned.find(([, own]) => fold(own) === fold(named)) || [named])[0];
}

// This function returns the notes on what was changed in texts before they were read.
/** @type {(texts: TableText[]) => string[]} */
export const notesOf = (texts) => texts.flatMap(({ changes }) => changes);

// This function returns a line on what has names that differ in capitals or blanks alone, by a word
// for it.
/** @type {(word: string, names: string[]) => string[]} */
export function alikeLines(word, names) {
  /** @type {Map<string, string[]>} */
  const found = new Map();
  for (const name of names) {
    const key = fold(name.replace(/\s+/g, ''));
    if (found.has(key)) found.get(key).push(name);
    else found.set(key, [name]);
  }
  const alike = [...found.values()].filter((same) => same.length > 1)
    .map((same) => same.map(shown).join(' and '));
  return alike.length ? [`Read as different ${word}: ${listed(alike)}.`] : [];
}

// The rows of a table. `heads` are its heads in small letters, `titles` as the planner wrote them.
export class Table {
  /**
   * @param {TableText} text
   * @param {AnsweredTable} read
   */
  constructor(text, read) {
    this.name = text.name;
    this.mark = text.mark;
    this.separator = text.separator(read);
    this.headLine = read.headLine;
    this.rows = read.rows;
    this.heads = read.titles.map(fold);
    this.titles = read.titles.map((title) => text.own.get(title) ?? title);
  }

  /** @type {(wanted: string[]) => boolean} */
  has(wanted) { return wanted.every((head) => this.heads.includes(head)); }

  // This method returns the cells of a row under some heads; empty ones where there is no column.
  /** @type {(heads: string[]) => (cells: string[]) => string[]} */
  reader(heads) {
    const places = heads.map((head) => this.heads.indexOf(head));
    return (cells) => places.map((place) => cellAt(cells, place));
  }

  // This method returns the places of the columns that stay in front of new results. A complete
  // group of earlier results is left out.
  /** @type {(...results: string[][]) => number[]} */
  kept(...results) {
    const gone = new Set(results.filter((heads) => this.has(heads)).flat());
    return this.heads.map((_, place) => place).filter((place) => !gone.has(this.heads[place]));
  }
}
