// @ts-check
// Tables that only create the rows in sight, so that a hundred thousand rows scroll. A sheet has a
// title, columns, a count, and row(k), which returns the kind and the cells of the k-th row as
// texts. A column has a head, its meaning, whether it holds numbers and, if its cells may be
// changed, the head of the input.
import { ZERO, compare, decimalText, decimalsOf, exactOf, scaled } from './amounts.js';
import { el, grouped } from './view.js';

/**
 * The state of a sheet: the column that sorts it (null: the original order), and so on.
 * @typedef {object} GridState
 * @property {number | null} by
 * @property {boolean} down
 * @property {string} filter
 * @property {boolean} used
 * @property {number} top
 * @typedef {(sheet: Sheet, row: number, head: string, text: string) => void} Changing
 */

// The height of a row, how many rows are created beyond those in sight, and up to how many rows a
// table is printed whole.
const HIGH = 31, BEYOND = 12, PRINTED = 5000;
// Browsers can't scroll more rows than this.
const MOST_ROWS = 500000;

// The sorting, filter and scroll position of each sheet, by title. They survive a new plan.
/** @type {Map<string, GridState>} */
const kept = new Map();
// The label of the sheet that was chosen where there are several. It survives a new plan, too.
let viewed = '';

export class Grid {
  /**
   * @param {Sheet} sheet
   * @param {{ mark: string, change: Changing, viewing: () => void }} settings
   */
  constructor(sheet, { mark, change, viewing }) {
    this.mark = mark;
    this.change = change;
    this.viewing = viewing;
    this.element = el('section');
    if (sheet.views) this.choose(sheet.views, sheet.views.labels.indexOf(viewed));
    else this.put(sheet);
  }

  // This method shows one of several sheets, by default the first.
  /** @type {(views: Views, k: number) => void} */
  choose(views, k) {
    views.chosen = Math.max(0, k);
    this.put({ ...views.sheet(views.chosen), views });
  }

  // This method shows a sheet.
  /** @type {(sheet: Sheet) => void} */
  put(sheet) {
    this.sheet = sheet;
    this.state = kept.get(sheet.title)
      || { by: null, down: false, filter: '', used: false, top: 0 };
    kept.set(sheet.title, this.state);
    this.heads = sheet.columns.map((column, k) => this.headOf(column, k));
    this.body = el('tbody');
    this.foot = (sheet.totals || []).map((_, k) =>
      el('td', { class: sheet.columns[k].number ? 'number' : null })
    );
    const foot = sheet.totals ? [el('tfoot', {}, el('tr', {}, this.foot))] : [];
    this.table = el(
      'table', { 'aria-label': sheet.title, 'aria-rowcount': sheet.count + 1 },
      el('thead', {}, el('tr', { 'aria-rowindex': 1 }, this.heads)), this.body, ...foot
    );
    this.box = el(
      'div',
      {
        class: 'sheet',
        tabindex: 0,
        role: 'region',
        'aria-label': sheet.title,
        onscroll: () => this.scrolled(),
      },
      this.table
    );
    this.count = el('span', { class: 'soft count', role: 'status' });
    this.element.replaceChildren(
      el('h2', {}, sheet.views ? 'Sums' : sheet.title),
      sheet.note ? el('p', { class: 'soft' }, sheet.note) : '',
      sheet.views ? this.viewsOf(sheet.views) : '',
      this.tools(),
      this.box
    );
    this.order = null;
    this.arrange();
  }

  // This method returns the field that chooses one of several sheets.
  /** @type {(views: Views) => HTMLElement} */
  viewsOf(views) {
    const field = el('select', {
      onchange: () => {
        viewed = views.labels[field.selectedIndex];
        this.choose(views, field.selectedIndex);
        this.viewing();
        this.settle();
        this.element.querySelector('select').focus();
      },
    }, views.labels.map((label, k) => el('option', { selected: k === views.chosen }, label)));
    return el('p', {}, el('label', {}, 'of ', field));
  }

  /** @type {(column: Column, k: number) => HTMLElement} */
  headOf(column, k) {
    return el(
      'th',
      {
        class: column.number ? 'number' : null,
        title: column.meaning || null,
        tabindex: 0,
        scope: 'col',
        onclick: () => this.sortBy(k),
        onkeydown: (/** @type {KeyboardEvent} */ event) => {
          if (event.key === 'Enter' || event.key === ' ') {
            event.preventDefault();
            this.sortBy(k);
          }
        },
      },
      column.head
    );
  }

  tools() {
    if (this.sheet.count <= 5) return '';
    const search = el(
      'input',
      {
        type: 'search',
        placeholder: 'filter',
        'aria-label': `filter ${this.sheet.title}`,
        value: this.state.filter,
        oninput: () => { this.state.filter = search.value; this.state.top = 0; this.arrange(); },
      }
    );
    const box = el('input', {
      type: 'checkbox',
      onchange: () => { this.state.used = box.checked; this.state.top = 0; this.arrange(); },
    });
    box.checked = this.state.used;
    return el(
      'div',
      { class: 'tools' },
      search,
      this.sheet.hasIdle ? el('label', {}, box, ' only what carries something') : '',
      this.count
    );
  }

  /** @type {(k: number) => void} */
  sortBy(column) {
    const first = this.sheet.columns[column].number;
    this.state.down = this.state.by === column ? !this.state.down : Boolean(first);
    this.state.by = column;
    this.arrange();
  }

  // This method selects the rows to show and sorts them.
  arrange() {
    const { sheet, state } = this, words = state.filter.toLowerCase().split(/\s+/).filter(Boolean);
    let order = Array.from({ length: Math.min(sheet.count, MOST_ROWS) }, (_, k) => k);
    if (words.length || state.used) {
      order = order.filter((k) => {
        const { kind, cells } = sheet.row(k);
        const text = words.length ? cells.join(' ').toLowerCase() : '';
        return words.every((word) => text.includes(word)) && !(state.used && kind === 'idle');
      });
    }
    if (state.by !== null && state.by < sheet.columns.length) order = sorted(
      order, (k) => sheet.row(k).cells[state.by], sheet.columns[state.by].number, state.down
    );
    this.heads.forEach((head, k) => (
      k === state.by
        ? head.setAttribute('aria-sort', state.down ? 'descending' : 'ascending')
        : head.removeAttribute('aria-sort')
    ));
    this.order = order;
    this.count.textContent = order.length === sheet.count ? `${grouped(String(sheet.count))} lines`
      : `${grouped(String(order.length))} of ${grouped(String(sheet.count))} lines`;
    totalsOf(sheet, order, this.count.textContent).forEach((text, k) => {
      this.foot[k].textContent = grouped(text, this.mark);
    });
    this.fill(true);
  }

  scrolled() {
    this.state.top = this.box.scrollTop;
    this.fill(false);
  }

  // This method restores the scroll position once the table is in the page.
  settle() {
    this.box.scrollTop = this.state.top;
    this.fill(true);
  }

  // This method creates the rows in sight, or all rows for print.
  /** @type {(anew: boolean, all?: boolean) => void} */
  fill(anew, all = false) {
    const seen = Math.ceil((this.box.clientHeight || 700) / HIGH);
    const begin = all ? 0 : Math.max(0, Math.floor(this.box.scrollTop / HIGH) - BEYOND);
    const end = Math.min(this.order.length, all ? PRINTED : begin + seen + 2 * BEYOND);
    if (!anew && begin === this.begin && end === this.end) return;
    this.begin = begin;
    this.end = end;
    const gap = (/** @type {number} */ rows) => (
      rows > 0
        ? [
          el(
            'tr',
            { class: 'gap', 'aria-hidden': 'true' },
            el('td', { colspan: this.sheet.columns.length, style: `height: ${rows * HIGH}px` })
          ),
        ]
        : []
    );
    this.body.replaceChildren(
      ...gap(begin),
      ...this.order.slice(begin, end).map((k, nth) => this.rowOf(k, begin + nth)),
      ...(all ? [] : gap(this.order.length - end))
    );
  }

  /** @type {(k: number, nth: number) => HTMLElement} */
  rowOf(k, nth) {
    const { kind, cells } = this.sheet.row(k);
    return el(
      'tr',
      { class: kind || null, 'aria-rowindex': nth + 2 },
      this.sheet.columns.map((column, c) => this.cellOf(k, column, cells[c] ?? '', cells))
    );
  }

  /** @type {(k: number, column: Column, text: string, cells: string[]) => HTMLElement} */
  cellOf(k, column, text, cells) {
    if (column.edit && this.change && text !== null) {
      /** @type {HTMLInputElement} */
      const field = el(
        'input',
        {
          class: 'cell',
          value: text.replace('.', this.mark || '.'),
          'aria-label': `${column.head} of ${cells[0]}${column.of ? ` to ${cells[1]}` : ''}`,
          'data-key': `${this.sheet.title} ${k} ${column.edit}`,
          onchange: () => this.change(this.sheet, k, column.edit, field.value),
        }
      );
      return el('td', { class: 'number' }, field);
    }
    if (column.share) return el(
      'td',
      { class: 'number' },
      text === '' ? '' : el('span', { class: 'share', style: `--part: ${text}%` }),
      text === '' ? '' : `${text} %`
    );
    return el(
      'td',
      column.number ? { class: 'number' } : { title: text },
      column.number ? grouped(text, this.mark) : text
    );
  }
}

// This function returns the line below the rows: the totals of the sheet or, if a filter hides
// rows, the totals and the number of the rows shown.
/** @type {(sheet: Sheet, order: number[], lines: string) => string[]} */
export function totalsOf(sheet, order, lines) {
  if (!sheet.totals || order.length === sheet.count) return sheet.totals || [];
  return sheet.totals.map((total, k) => (
    k === 0 ? `of ${lines}` : total && sumOf(order.map((row) => sheet.row(row).cells[k]))
  ));
}

/** @type {(text: string) => Exact | null} */
const figureOf = (text) => (/^-?[0-9]+(\.[0-9]+)?$/.test(text) ? exactOf(text) : null);

/** @type {(texts: string[]) => string} */
function sumOf(texts) {
  const numbers = texts.map((text) => figureOf(text) || ZERO), decimals = decimalsOf(numbers);
  return decimalText(numbers.reduce((sum, number) => sum + scaled(number, decimals), 0n), decimals);
}

// This function sorts rows by the texts of a column: numbers by their values, empty cells last.
/**
 * @param {number[]} order
 * @param {(k: number) => string} text
 * @param {boolean} isNumber
 * @param {boolean} down
 */
function sorted(order, text, isNumber, down) {
  const sign = down ? -1 : 1;
  return isNumber
    ? byKeys(order, (k) => numberOf(text(k)), byWorth, sign)
    : byKeys(order, text, new Intl.Collator().compare, sign);
}

/**
 * @template Key
 * @param {number[]} order
 * @param {(k: number) => Key | null} keyed
 * @param {(a: Key, b: Key) => number} compared
 * @param {number} sign
 */
function byKeys(order, keyed, compared, sign) {
  const keys = new Map(order.map((k) => [k, keyed(k)]));
  return order.sort((i, j) => {
    const [a, b] = [keys.get(i), keys.get(j)];
    if (a === null || b === null) return Number(a === null) - Number(b === null) || i - j;
    return sign * compared(a, b) || i - j;
  });
}

/** @typedef {{ near: number, exact: Exact }} Worth */

/** @type {(a: Worth, b: Worth) => number} */
function byWorth(a, b) {
  return a.near !== b.near ? (a.near < b.near ? -1 : 1) : compare(a.exact, b.exact);
}

/** @type {(text: string) => Worth | null} */
function numberOf(text) {
  const exact = figureOf(text);
  return exact && { near: Number(text), exact };
}
