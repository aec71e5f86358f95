// @ts-check
// This file collects the faults of tables by kind, so that the page reports them together before it
// solves anything. It also has helpers for sentences.

// A fault names this many cells of its kind after the first. A sentence has at most TOLD_NAMES
// names.
const TOLD_CELLS = 4;
export const TOLD_NAMES = 8;

// This class ends a run without a plan, because tables can't be read as meant.
export class BadTable extends Error {
  /** @param {string[]} lines */
  constructor(lines) {
    super(lines.join('\n'));
    this.lines = lines;
  }
}

// This function locates a cell by the name of its table, its line and its column; the column is a
// head, or a number from 1. Without a column, it locates a whole line, and with line 0 the table.
/** @type {(table: string, line: number, column?: string) => Where} */
export const at = (table, line, column = '') => ({ table, line, column });

// A character that can't be printed, or that looks like a blank but isn't one.
const UNPRINTED = /^(?:[\p{C}\p{Zl}\p{Zp}]|(?! )\p{Zs})$/u;

// This function quotes a cell, shortens it, and spells out characters that can't be printed.
/** @type {(cell: string) => string} */
export function shown(cell) {
  const letters = [...cell];
  const short = letters.length <= 40 ? letters : [...letters.slice(0, 37), '...'];
  return `'${short.map((c) => (UNPRINTED.test(c) ? spelt(c.codePointAt(0)) : c)).join('')}'`;
}

// This function spells out a character by its number.
/** @type {(code: number) => string} */
function spelt(code) {
  const [mark, width] = code < 256 ? ['x', 2] : ['u', 4];
  return `\\${mark}${code.toString(16).padStart(width, '0')}`;
}

export class Faults {
  constructor() {
    /** @type {Map<string, Fault>} */
    this.kinds = new Map();
  }

  // This method notes a fault in a table. Faults of one kind share one line.
  /** @type {(where: Where, kind: string, text: string, cell?: string) => void} */
  add({ table, line, column }, kind, text, cell = '') {
    const key = JSON.stringify([table, kind, /^[0-9]+$/.test(column) ? '' : column]);
    if (!this.kinds.has(key)) {
      const where = `${table}${line ? `, line ${line}` : ''}${column ? `, column ${column}` : ''}`;
      this.kinds.set(key, { text: `${where}: ${text}`, count: 0, more: new Map() });
    }
    const found = this.kinds.get(key);
    found.count++;
    if (found.count > 1 && found.more.size < TOLD_CELLS && !found.more.has(cell)) {
      found.more.set(cell, line);
    }
  }

  // This method throws a BadTable if there was a fault, with notes on how the tables were read.
  /** @param {string[]} [notes] */
  end(notes = []) {
    if (this.kinds.size) throw new BadTable([...[...this.kinds.values()].map(told), ...notes]);
  }
}

/** @type {(fault: Fault) => string} */
function told({ text, count, more }) {
  if (count === 1) return text;
  const cells = [...more].map(([cell, line]) => `${cell ? `${shown(cell)} ` : ''}in line ${line}`);
  return `${text} (${count} such cells; also ${cells.join(', ')})`;
}

// This function joins texts with commas, or with semicolons if one of them has a comma, and says
// how many more there are.
/** @type {(texts: string[], most?: number) => string} */
export function listed(texts, most = TOLD_NAMES) {
  const more = texts.length - most, first = texts.slice(0, most);
  const mark = first.some((text) => text.includes(', ')) ? '; ' : ', ';
  return first.join(mark) + (more > 0 ? ` and ${more} more` : '');
}

/** @type {(number: number, one: string, many: string) => string} */
export const countOf = (number, one, many) => `${number} ${number === 1 ? one : many}`;
