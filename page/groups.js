// @ts-check
// Groups of persons or of things: what an answer tells of them.
import { column, number, sheetOf } from './columns.js';
import { listed } from './faults.js';

/** @typedef {import('./pairs.js').Roster} Roster */

const HEADS = ['group', 'kind', 'name', 'count', 'least', 'most', 'kept'];
const CROSSING = 'A minimum-cost flow keeps to groups that have no member in common, or that are '
  + 'one within the other.';

// This function returns the least and the most of each group, as cells.
/** @type {(roster: Roster) => Map<string, string[]>} */
function rangesOf({ groupTable }) {
  /** @type {Map<string, string[]>} */
  const found = new Map(), read = groupTable.reader(['group', 'least', 'most']);
  for (const { cells } of groupTable.rows) {
    const [name, ...ends] = read(cells), before = found.get(name) || [];
    found.set(name, ends.map((end, k) => end || before[k] || ''));
  }
  return found;
}

// This function returns how many members of each group each person or thing has, with the range of
// the group: of the groups that the plan keeps to, and then of those that were left out, where the
// number is outside their range.
/** @type {(roster: Roster) => string[][]} */
function countsOf(roster) {
  if (!roster.groupTable) return [];
  const ranges = rangesOf(roster);
  return [['group', 'yes'], ['broken', 'no']].flatMap(([word, kept]) =>
    roster.answer.rows(word).map(([, name, kind, owner, count]) =>
      [name, kind, owner, count, ...ranges.get(name), kept]
    )
  );
}

// This function returns the table of groups, if there are some.
/** @type {(roster: Roster) => SavedTable[]} */
export const groupsTables = (roster) => (roster.groupTable ? [{
  name: 'groups',
  like: roster.groupTable,
  heads: HEADS,
  rows: countsOf(roster),
  figures: [],
}] : []);

// This function returns a line on the groups without numbers, if there are some.
/** @type {(roster: Roster) => string[]} */
export function idleLines(roster) {
  const ranges = roster.groupTable ? [...rangesOf(roster)] : [];
  const names = ranges.filter(([, ends]) => !ends.some(Boolean)).map(([name]) => name);
  return names.length ? [`Groups without least and most ask for nothing: ${listed(names)}.`] : [];
}

// This function returns lines on the groups that were left out.
/** @type {(roster: Roster) => string[]} */
export function leftOutLines({ answer }) {
  const found = answer.rows('crossing').map(([, name, other]) => `${name} (crosses ${other})`);
  return found.length
    ? [`Left out, so not kept to by the proof: ${listed(found)}. ${CROSSING}`]
    : [];
}

// This function returns lines on the groups that were left out, and on who breaks them.
/** @type {(roster: Roster) => string[]} */
export function groupLines(roster) {
  const lines = leftOutLines(roster);
  if (!lines.length) return [];
  const broken = roster.answer.rows('broken')
    .map(([, name, , owner, count]) => `${name} by ${owner} (${count})`);
  return [
    ...lines,
    broken.length ? `Broken in this plan: ${listed(broken)}.` : 'Nobody breaks them.',
  ];
}

// This function returns the sheet of groups, if there are some.
/** @type {(roster: Roster) => Sheet[]} */
export function groupSheets(roster) {
  /** @type {SheetRow[]} */
  const rows = countsOf(roster).map((cells) => ({ kind: cells[6] === 'yes' ? '' : 'full', cells }));
  return rows.length
    ? [
      sheetOf(
        'Groups',
        [
          column('group'),
          column('kind'),
          column('name', 'who has members of the group'),
          number('count', 'of its members'),
          number('least'),
          number('most'),
          column('kept', 'within both'),
        ],
        rows
      ),
    ]
    : [];
}
