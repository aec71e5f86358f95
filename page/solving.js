// @ts-check
// This file reads accepted answers for DIMACS texts, and finds what blocks such a network. The
// solver has a method solve(text, engine), which returns the status flow, blocked or refused with
// an accepted answer, or another status, and a method check(text, answer), which says whether an
// answer is accepted.

/** @typedef {import('./network.js').Network<Arc>} Network */

// This class ends a run that has no trustworthy answer.
export class NoAnswer extends Error {
  /** @param {Status} status */
  constructor(status, why = '') {
    super(why || status);
    this.status = status;
  }
}

// This function returns the fields, after the first, of the lines of an answer that begin with a
// letter.
/** @type {(answer: string, letter: string) => string[][]} */
export const linesOf = (answer, letter) => answer.split('\n').filter(
  (line) => line.startsWith(`${letter} `)
).map((line) => line.split(' ').slice(1));

// This function reads an accepted flow for a network with these arcs. The second form omits arcs
// that carry their least.
/** @type {(answer: string, arcs: Arc[]) => Plan} */
export function planOf(answer, arcs) {
  const flows = arcs.map((arc) => arc.least), prices = [];
  let cost = 0n;
  for (const line of answer.split('\n')) {
    const fields = line.split(' ');
    if (fields[0] === 'g') flows[Number(fields[1]) - 1] = BigInt(fields[2]);
    else if (fields[0] === 'y') prices[Number(fields[1]) - 1] = BigInt(fields[2]);
    else if (fields[0] === 's') cost = BigInt(fields[1]);
  }
  return { cost, flows, prices };
}

// This function returns a set of nodes that must send more than it can. It asks cost scaling, which
// returns the smallest of the sets with the greatest shortfall: every node in it matters.
/** @type {(solver: Solver, network: Network) => Promise<Set<number>>} */
async function blockingSet(solver, network) {
  const found = await solver.solve(`${network.lines().join('\n')}\n`, 'scaling');
  if (found.status !== 'blocked' || linesOf(found.answer, 'i')[0][1] !== 'send') {
    throw new NoAnswer('rejected', 'another engine answers otherwise');
  }
  return new Set(linesOf(found.answer, 'x').map(([node]) => Number(node)));
}

// This function returns the bottlenecks of a balanced network without a flow, each accepted for its
// text. It looks for nodes that must send too much and for nodes that must take too much, and
// returns those with fewer nodes.
/** @type {(solver: Solver, text: Uint8Array, network: Network) => Promise<Bottleneck<Arc>[]>} */
export async function bottlenecksOf(solver, text, network) {
  const sending = network.blockingParts('send', await blockingSet(solver, network));
  const taking = network.blockingParts('take', await blockingSet(solver, network.turned()));
  const count = (/** @type {Bottleneck<Arc>[]} */ choice) =>
    choice.reduce((sum, { nodes }) => sum + nodes.length, 0);
  const found = count(taking) < count(sending) ? taking : sending;
  for (const { side, nodes } of found) {
    const lines = nodes.map((node) => `x ${node}\n`);
    const verdict = await solver.check(text, `i ${nodes.length} ${side}\n${lines.join('')}`);
    if (!verdict.accepted) throw new NoAnswer('rejected', verdict.line);
  }
  return found;
}
