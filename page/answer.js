// @ts-check
// This file reads the answers of the module about tables. An answer is the text of a table, whose
// cells all stand between quotes. The first cell of a row says what the row is.

// This function returns the rows of an answer, as cells.
/** @type {(text: string) => string[][]} */
export function rowsOf(text) {
  /** @type {string[][]} */
  const rows = [];
  /** @type {string[]} */
  let row = [];
  for (let at = 0; at < text.length;) {
    let cell = '', from = at + 1, end = text.indexOf('"', from);
    while (text[end + 1] === '"') {
      cell += text.slice(from, end + 1);
      from = end + 2;
      end = text.indexOf('"', from);
    }
    row.push(cell + text.slice(from, end));
    if (text[end + 1] === '\n') {
      rows.push(row);
      row = [];
    }
    at = end + 2;
  }
  return rows;
}

// What an answer says: its numbers by their names, the cells of its other rows by their first word,
// and the rows of the tables that it answers, without those of their heads.
export class Answer {
  /** @param {string} text */
  constructor(text) {
    /** @type {Map<string, string>} */
    this.numbers = new Map();
    /** @type {Map<string, string[][]>} */
    this.told = new Map();
    /** @type {Map<string, AnsweredTable>} */
    this.tables = new Map();
    for (const [word, ...cells] of rowsOf(text)) {
      const [name, line] = cells;
      if (word === 'heads') {
        this.tables.set(name, { headLine: Number(line), titles: cells.slice(2), rows: [] });
      } else if (word === 'row') {
        this.tables.get(name).rows.push({ line: Number(line), cells: cells.slice(2) });
      } else if (cells.length === 1) this.numbers.set(word, name);
      else if (this.told.has(word)) this.told.get(word).push(cells);
      else this.told.set(word, [cells]);
    }
  }

  // This method returns the rows that begin with a word, without it.
  /** @type {(word: string) => string[][]} */
  rows(word) { return this.told.get(word) || []; }

  // This method returns a number of the answer as text.
  /** @type {(name: string) => string} */
  number(name) { return this.numbers.get(name) || '0'; }

  // This method returns the mark before the decimals of the tables, if they show one.
  get mark() { return this.numbers.get('mark') || null; }
}
