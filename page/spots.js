// @ts-check
// Where places are on a map, if their table has x and y. The module doesn't read these columns.
import { plainMinus } from './amounts.js';
import { at, shown } from './faults.js';

/**
 * @typedef {import('./faults.js').Faults} Faults
 * @typedef {import('./tables.js').Table} Table
 */

export const SPOT_HEADS = ['x', 'y'];

// This function reads a coordinate of a place: a number that may have decimals.
/** @type {(table: Table, line: number, head: string, cell: string, faults: Faults) => number} */
function coordinateIn(table, line, head, cell, faults) {
  const plain = plainMinus(cell), text = plain.includes('.') ? plain : plain.replace(',', '.');
  const number = /^[+-]?(\d+\.?\d*|\.\d+)([eE][+-]?\d+)?$/.test(text) ? Number(text) : NaN;
  if (!Number.isFinite(number)) {
    const told = `${shown(cell)} is no number (either all places have x and y, or leave the `
      + 'columns out)';
    faults.add(at(table.name, line, head), 'no spot', told, cell);
  }
  return number;
}

// This function returns where the places of a table are, if it has x and y.
/** @type {(table: Table, faults: Faults) => Spot[]} */
export function spotsOf(table, faults) {
  if (!table.has(SPOT_HEADS)) return [];
  const read = table.reader(SPOT_HEADS);
  return table.rows.map(({ line, cells }) =>
    /** @type {Spot} */ (read(cells).map((cell, k) =>
      coordinateIn(table, line, SPOT_HEADS[k], cell, faults)
    ))
  );
}
