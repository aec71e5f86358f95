// @ts-check
// The cells of a row in a text.

// This function returns the cell of a text that begins at a place, and where it ends.
/** @type {(text: string, from: number, mark: string) => { cell: string, end: number }} */
function cellFrom(text, from, mark) {
  let at = from, cell = '';
  while (text[at] === ' ') at++;
  if (text[at] === '"') {
    const quoted = /"([^"]*(?:""[^"]*)*)"?/y;
    quoted.lastIndex = at;
    cell = quoted.exec(text)[1].replaceAll('""', '"');
    at = quoted.lastIndex;
  }
  let end = at;
  while (end < text.length && text[end] !== mark && text[end] !== '\n') end++;
  return { cell: (cell + text.slice(at, end)).trim(), end };
}

// This function returns the cells of the first row of a text, none if it is empty.
/** @type {(text: string, mark: string) => string[]} */
export function firstRow(text, mark) {
  /** @type {string[]} */
  const cells = [];
  for (let at = 0, isOpen = text.length > 0; isOpen; at++) {
    const { cell, end } = cellFrom(text, at, mark);
    cells.push(cell);
    isOpen = text[end] === mark;
    at = end;
  }
  return cells;
}
