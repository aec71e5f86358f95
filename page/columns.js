// @ts-check
// Columns of the tables that the page shows, and tables of given rows.

/** @type {(head: string, meaning?: string, more?: Partial<Column>) => Column} */
export const column = (head, meaning = '', more = {}) => ({ head, meaning, ...more });
/** @type {(head: string, meaning?: string, more?: Partial<Column>) => Column} */
export const number = (head, meaning, more = {}) =>
  column(head, meaning, { number: true, ...more });
// Heads of the columns that every sheet shows.
const USED = 'from to least most cost name supply penalty x y period'.split(' ');

// This function returns a sheet of given rows.
/** @type {(title: string, columns: Column[], rows: SheetRow[], more?: Partial<Sheet>) => Sheet} */
export const sheetOf = (title, columns, rows, more = {}) => ({
  title,
  columns,
  count: rows.length,
  row: (k) => rows[k],
  hasIdle: rows.some(({ kind }) => kind === 'idle'),
  ...more,
});

// This function returns the planner's own columns of a table.
/** @type {(table: import('./tables.js').Table) => number[]} */
export const ownColumns = (table) =>
  table.heads.map((_, place) => place).filter((place) => !USED.includes(table.heads[place]));
