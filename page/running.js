// @ts-check
// This file runs the page from input to result: it has the module answer tables or a text, and
// describes the answer. The answer to tables is proved; that to a text is shown only if the checker
// accepts it.
import {
  blockedShown,
  pairsBlocked,
  pairsShown,
  planShown,
  textBlocked,
  textShown,
} from './sheets.js';
import { markIn } from './amounts.js';
import { Answer } from './answer.js';
import { Blocked, surplusOf } from './blocked.js';
import { BadTable, Faults } from './faults.js';
import { Problem } from './model.js';
import { networkOf } from './network.js';
import { Roster } from './pairs.js';
import { FlowPlan } from './plan.js';
import { Teller } from './sentences.js';
import { NoAnswer, bottlenecksOf, linesOf, planOf } from './solving.js';
import { headIn, notesOf, textsOf } from './tables.js';
import { grouped } from './view.js';
import { CODES, words } from './words.js';

// For a text of more bytes than TABLES, the page shows only the cost and no tables. For more arcs
// than SEARCHED, it shows the set that the answer names.
const TABLES = 3e7, SEARCHED = 100000;
// A penalty, perhaps with a mark before its decimals.
const PENALTY = /^[0-9]{1,18}(?:([.,])[0-9]{1,18})?$/;

/** @typedef {import('./tables.js').TableText} TableText */

// This function has the module answer texts, which have these words in answers. They note what it
// changed.
/**
 * @param {Solver} solver
 * @param {Record<string, TableText>} texts
 * @param {Reading} reading
 * @param {TableOptions} options
 * @returns {Promise<{ found: Answer, result: Result }>}
 */
async function untold(solver, texts, reading, options) {
  const decimal = reading.decimal || '', read = Object.values(texts);
  const columns = reading.fillDown || [], fillDown = columns.map((one) => headIn(read, one));
  const bytes = read.map((text) => text.bytes());
  const result = await solver.plan(bytes, { decimal, fillDown, ...options });
  if (!['flow', 'blocked', 'refused'].includes(result.status)) {
    throw new NoAnswer(result.status, result.why);
  }
  const found = new Answer(result.answer);
  const lacking = found.rows('fault')
    .filter(([table, , what]) => table === 'options' && what === 'fill down')
    .map(([, number]) => `${words().fills(columns[Number(number) - 1])}: there is no such column`);
  if (lacking.length) throw new BadTable(lacking);
  const named = new Map(fillDown.map((head, k) => [head.toLowerCase(), columns[k]]));
  for (const [word, text] of Object.entries(texts)) text.change(word, found, named);
  return { found, result };
}

// This function has the module answer texts, which have these words in answers, and throws a
// BadTable for faults: of the answer, and those that were noted before.
/**
 * @param {Solver} solver
 * @param {Record<string, TableText>} texts
 * @param {Reading} reading
 * @param {TableOptions} options
 * @param {Faults} faults
 * @returns {Promise<{ found: Answer, result: Result }>}
 */
async function answered(solver, texts, reading, options, faults) {
  const answer = await untold(solver, texts, reading, options);
  new Teller(texts, reading, faults, options.penalty).tell(answer.found);
  faults.end(notesOf(Object.values(texts)));
  return answer;
}

// This function returns the options for a penalty and the mark before its decimals. It is written
// as in the tables: if no mark is chosen, it has theirs, and else its own settles it.
/**
 * @param {Solver} solver
 * @param {Record<string, TableText>} texts
 * @param {Reading} reading
 * @param {string} penalty
 * @param {Faults} faults
 * @returns {Promise<TableOptions>}
 */
async function priced(solver, texts, reading, penalty, faults) {
  const [isNumber, mark] = PENALTY.exec(penalty) || [];
  let { decimal } = reading;
  if (mark && !decimal) {
    const { found } = await answered(solver, texts, reading, {}, faults);
    decimal = found.mark || markIn(penalty);
  }
  if (!isNumber || (mark && mark !== decimal)) {
    const other = isNumber && decimal && markIn(penalty)
      ? `: write ${penalty.replace(mark, decimal)}`
      : '';
    const told = `${words().penalty(penalty)}: this is no cost, written as in the tables`;
    throw new BadTable([told + other]);
  }
  return { penalty, decimal: decimal || '' };
}

// This function answers tables of places and routes: with a plan, or with what blocks every plan.
/**
 * @param {Solver} solver
 * @param {Source[]} sources
 * @param {Choices} choices
 * @returns {Promise<{ problem: Problem, plan?: FlowPlan, blocked?: Blocked, result: Result }>}
 */
export async function flowOf(solver, sources, { reading, policy }) {
  const faults = new Faults(), [places, routes] = textsOf(sources, reading, faults);
  const texts = { places, routes }, { penalty } = policy;
  const more = penalty ? await priced(solver, texts, reading, penalty, faults) : {};
  const asked = { ...policy, ...more };
  const { found, result } = await answered(solver, texts, reading, asked, faults);
  const problem = new Problem(found, [places, routes], reading, penalty);
  if (result.status === 'flow') {
    return { problem, plan: new FlowPlan(problem, policy, found), result };
  }
  const surplus = surplusOf(problem, policy);
  let eased = null;
  if (surplus) {
    const unused = policy.unused || surplus > 0n, short = policy.short || surplus < 0n;
    const options = { ...more, unused, short };
    const { found: answer } = await untold(solver, texts, reading, options);
    eased = { policy: { unused, short }, answer };
  }
  return { problem, blocked: new Blocked(problem, policy, found, eased), result };
}

// This function answers a table of persons and things, and perhaps one of groups.
/**
 * @param {Solver} solver
 * @param {Source[]} sources
 * @param {Choices} choices
 * @returns {Promise<{ roster: Roster, result: Result }>}
 */
export async function pairsOf(solver, sources, choices) {
  const { reading, each, maximise, crossing } = choices;
  const faults = new Faults(), [costs, groups] = textsOf(sources, reading, faults);
  /** @type {Record<string, TableText>} */
  const texts = groups ? { costs, groups } : { costs };
  const asked = { each: each || '', maximise, crossing };
  const { found, result } = await answered(solver, texts, reading, asked, faults);
  return { roster: new Roster(found, [costs, groups], choices), result };
}

/** @type {(solver: Solver, sources: Source[], choices: Choices) => Promise<Run>} */
export async function runFlow(solver, sources, choices) {
  const { plan, blocked, result } = await flowOf(solver, sources, choices);
  return plan ? { ...planShown(plan), plan, result } : { ...blockedShown(blocked), result };
}

/** @type {(solver: Solver, sources: Source[], choices: Choices) => Promise<Run>} */
export async function runPairs(solver, sources, choices) {
  const { roster, result } = await pairsOf(solver, sources, choices);
  return { ...result.status === 'flow' ? pairsShown(roster) : pairsBlocked(roster), result };
}

// This function returns the result of a text without tables.
/**
 * @param {boolean} isPlan
 * @param {Run['headline']} headline
 * @param {string} line
 * @param {Result} result
 * @param {Run['instance']} instance
 * @returns {Run}
 */
const withoutTables = (isPlan, headline, line, result, instance) => ({
  isPlan,
  headline,
  lead: () => [line],
  facts: [],
  findings: [],
  sheets: [],
  tables: () => [],
  result,
  instance,
});

// This function runs a DIMACS text, given as bytes.
/** @type {(solver: Solver, bytes: Uint8Array, choices: Choices) => Promise<Run>} */
export async function runText(solver, bytes, { engine }) {
  const result = await solver.solve(bytes, engine);
  const instance = { name: 'instance.min', text: bytes };
  if (result.status === 'rejected') throw new NoAnswer('rejected', result.verdict);
  if (result.status === 'refused') {
    const [line, code] = linesOf(result.answer, 'r')[0];
    return withoutTables(
      false,
      () => 'This text is refused',
      `Line ${line}: ${CODES[code] || code} (${code}).`,
      result,
      instance
    );
  }
  if (bytes.length > TABLES) {
    const cost = linesOf(result.answer, 's')[0];
    /** @type {Run['headline']} */
    const headline = ({ currency }) =>
      cost ? `Least cost: ${grouped(cost[0], '.', currency)}` : 'No flow exists';
    return withoutTables(
      Boolean(cost),
      headline,
      'It is too large for tables here; the answer is a text.',
      result,
      instance
    );
  }
  const network = networkOf(new TextDecoder().decode(bytes));
  if (network.isAssignment) instance.name = 'instance.asn';
  const shown = result.status === 'flow' ? textShown(network, planOf(result.answer, network.arcs))
    : textBlocked(await blockersOf(solver, bytes, result.answer, network));
  return { ...shown, result, instance };
}

// This function returns the bottlenecks of a text. If its supplies add up to 0 and it isn't large,
// it searches for them; else it takes the set of the answer.
/**
 * @param {Solver} solver
 * @param {Uint8Array} bytes
 * @param {string} answer
 * @param {import('./network.js').Network<Arc>} network
 * @returns {Promise<Bottleneck<Arc>[]>}
 */
async function blockersOf(solver, bytes, answer, network) {
  const total = network.supplies.reduce((sum, supply) => sum + supply, 0n);
  if (total === 0n && network.arcs.length <= SEARCHED) return bottlenecksOf(solver, bytes, network);
  const side = /** @type {SendOrTake} */ (linesOf(answer, 'i')[0][1]);
  const nodes = linesOf(answer, 'x').map(([node]) => Number(node));
  return [network.bottleneck(side, new Set(nodes))];
}
