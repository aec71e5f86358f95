// @ts-check
// Numbers, exact: each is a whole number and a count of decimals, without zeros at the end of the
// decimals. The module has read the cells of tables; this file only turns what it read into
// numbers, and writes numbers.

// Characters that print as a minus: hyphens, dashes no longer than a digit, and the minus sign.
const MINUS = /^[\u2010-\u2013\u2212\ufe63\uff0d](?=[.,]?[0-9])/;
// A cell with one mark and three digits after it. The mark may stand between thousands or before
// decimals.
const EITHER = /^[+-]?[1-9][0-9]{0,2}[.,][0-9]{3}$/;
// Other numbers: perhaps with a mark or blanks between thousands, and with one before decimals.
const BETWEEN = "([.,])[0-9]{3}(?:\\1[0-9]{3})*|(?:[ '_\\u00a0\\u2009\\u202f\\u2019][0-9]{3})+";
const MARKED = new RegExp(`^[+-]?(?:[0-9]*|[0-9]{1,3}(?:${BETWEEN}))(?:([.,])[0-9]+)?$`);
const WHOLE = /^-?[0-9]+$/;
/** @type {Exact} */
export const ZERO = { digits: 0n, decimals: 0 };

// This function replaces a printed minus with the minus of a keyboard.
/** @type {(cell: string) => string} */
export const plainMinus = (cell) => cell.replace(MINUS, '-');

// This function returns the mark before decimals that a cell shows, or null.
/** @type {(text: string) => string | null} */
export function markIn(text) {
  const cell = plainMinus(text), found = EITHER.test(cell) ? null : MARKED.exec(cell);
  const [, thousands, mark] = found || [];
  return thousands === mark ? null : mark || (thousands === '.' ? ',' : '.');
}

// This function returns the number that a text writes with a mark before its decimals: its sign,
// its digits and that mark count, and all else only stands between thousands.
/** @type {(text: string, mark?: string | null) => Exact} */
export function exactOf(text, mark = '.') {
  if (text === '' || text === '0') return ZERO;
  if (WHOLE.test(text)) return { digits: BigInt(text), decimals: 0 };
  const cell = plainMinus(text), [whole, part = ''] = cell.split(mark || '.');
  const digits = whole.replace(/[^0-9]/g, '');
  let decimals = part.length;
  while (decimals && part[decimals - 1] === '0') decimals--;
  const size = BigInt(digits + part.slice(0, decimals) || 0);
  return { digits: cell.startsWith('-') ? -size : size, decimals };
}

// This function returns a limit that a cell says, or null if it says that there is none.
/** @type {(cell: string, mark: string | null) => Exact | null} */
export const limitOf = (cell, mark) => (/[0-9]/.test(cell) ? exactOf(cell, mark) : null);

// This function returns the number as a count of units, of which 10^decimals make one.
/** @type {(number: Exact, decimals: number) => bigint} */
export const scaled = (number, decimals) =>
  number.digits * 10n ** BigInt(decimals - number.decimals);
/** @type {(numbers: Exact[]) => number} */
export const decimalsOf = (numbers) =>
  numbers.reduce((most, number) => Math.max(most, number.decimals), 0);

/** @type {(one: Exact, two: Exact) => number} */
export function compare(one, two) {
  const decimals = decimalsOf([one, two]), a = scaled(one, decimals), b = scaled(two, decimals);
  return a < b ? -1 : a > b ? 1 : 0;
}

// This function returns the first cell whose number could be read as another one, and the first
// that shows the mark; or nothing, if there is no such cell. Cells come with tables and lines.
/** @type {(cells: Iterable<NumberCell>, mark: string | null) => NumberCell[]} */
export function settledBy(cells, mark) {
  const all = mark ? [...cells] : [];
  const either = all.find(({ cell }) => EITHER.test(plainMinus(cell)));
  return either ? [either, all.find(({ cell }) => markIn(cell) === mark)] : [];
}

// This function writes a count of units, of which 10^decimals make one, as text without zeros at
// its end.
/** @type {(number: bigint, decimals: number) => string} */
export function decimalText(number, decimals) {
  if (!decimals) return String(number);
  const digits = String(number < 0n ? -number : number).padStart(decimals + 1, '0');
  const part = digits.slice(-decimals).replace(/0+$/, '');
  return (number < 0n ? '-' : '') + digits.slice(0, -decimals) + (part && `.${part}`);
}

// This class writes whole numbers in the units of the tables.
export class Units {
  /**
   * @param {number} amounts
   * @param {number} costs
   */
  constructor(amounts, costs) {
    this.amounts = amounts;
    this.costs = costs;
  }

  // This method writes an amount as text. No limit, as any null, is the empty text.
  /** @type {(number: bigint | null) => string} */
  amount(number) { return number === null ? '' : decimalText(number, this.amounts); }

  /** @type {(number: bigint | null) => string} */
  rate(number) { return number === null ? '' : decimalText(number, this.costs); }

  /** @type {(number: bigint | null) => string} */
  total(number) { return number === null ? '' : decimalText(number, this.amounts + this.costs); }
}

// This class writes the same numbers for sentences, with the tables' mark before decimals.
export class Said {
  /**
   * @param {Units} units
   * @param {string | null} mark
   */
  constructor(units, mark) {
    this.units = units;
    this.mark = mark || '.';
  }

  /** @type {(figure: string) => string} */
  text(figure) { return figure.replace('.', this.mark); }

  /** @type {(number: bigint | null) => string} */
  amount(number) { return this.text(this.units.amount(number)); }

  /** @type {(number: bigint) => string} */
  rate(number) { return this.text(this.units.rate(number)); }

  /** @type {(number: bigint) => string} */
  total(number) { return this.text(this.units.total(number)); }
}
