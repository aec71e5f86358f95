// @ts-check
// Networks in whole numbers, and the sets of nodes that block every flow. Nodes have
// numbers from 1.

/** @template {Arc} A */
export class Network {
  /**
   * @param {bigint[]} supplies
   * @param {A[]} arcs
   */
  constructor(supplies, arcs) {
    this.supplies = supplies;
    this.arcs = arcs;
  }

  // This method returns the lines of the network's text.
  lines() {
    return [
      `p min ${this.supplies.length} ${this.arcs.length}`,
      ...this.supplies.map((supply, k) => `n ${k + 1} ${supply}`),
      ...this.arcs.map((arc) => `a ${arc.tail} ${arc.head} ${arc.least} ${arc.most} ${arc.cost}`),
    ];
  }

  // This method returns the network with reversed arcs and negated supplies: what must take in one
  // must send in the other.
  turned() {
    return new Network(
      this.supplies.map((supply) => -supply),
      this.arcs.map((arc) => ({ ...arc, tail: arc.head, head: arc.tail }))
    );
  }

  // This method computes what a set of nodes must send and can send (or take). It must send its
  // supplies and the least amounts of the entering arcs. It can send the capacities of the leaving
  // arcs. For a set that takes, entering and leaving arcs are exchanged.
  /** @type {(side: SendOrTake, nodes: Set<number>) => Bottleneck<A>} */
  bottleneck(side, nodes) {
    const isSend = side === 'send';
    const leads = (/** @type {number} */ from, /** @type {number} */ to) =>
      nodes.has(from) && !nodes.has(to);
    const limiting = this.arcs.filter(({ tail, head }) =>
      isSend ? leads(tail, head) : leads(head, tail)
    );
    const forcing = this.arcs.filter(({ tail, head, least }) =>
      least && (isSend ? leads(head, tail) : leads(tail, head))
    );
    const sorted = [...nodes].sort((a, b) => a - b);
    const supply = sorted.reduce((sum, node) => sum + this.supplies[node - 1], 0n);
    return {
      side,
      nodes: sorted,
      must: (isSend ? supply : -supply) + forcing.reduce((sum, { least }) => sum + least, 0n),
      can: limiting.reduce((sum, { most }) => sum + (most || 0n), 0n),
      forcing,
      limiting,
    };
  }

  // This method splits a blocking set into its bottlenecks. No arc joins two parts, so at least one
  // part blocks by itself.
  /** @type {(side: SendOrTake, nodes: Set<number>) => Bottleneck<A>[]} */
  blockingParts(side, nodes) {
    return partsOf(nodes, this.arcs)
      .map((part) => this.bottleneck(side, part))
      .filter((found) => found.must > found.can);
  }
}

// This function returns the connected parts of a set of nodes, joined by the arcs within it, in the
// order of their least nodes.
/** @type {(nodes: Iterable<number>, arcs: Ends[]) => Set<number>[]} */
export function partsOf(nodes, arcs) {
  const neighbours = new Map([...nodes].sort((a, b) => a - b).map((node) => [node, []]));
  const seen = new Set();
  const parts = [];
  for (const { tail, head } of arcs) {
    if (neighbours.has(tail) && neighbours.has(head)) {
      neighbours.get(tail).push(head);
      neighbours.get(head).push(tail);
    }
  }
  for (const begin of neighbours.keys()) {
    if (seen.has(begin)) continue;
    const part = new Set([begin]);
    for (const node of part) for (const next of neighbours.get(node)) part.add(next);
    for (const node of part) seen.add(node);
    parts.push(part);
  }
  return parts;
}

// This function reads the network of a DIMACS text without faults.
/** @type {(text: string) => Network<Arc> & { isAssignment: boolean }} */
export function networkOf(text) {
  const supplies = [], arcs = [];
  let persons = false;
  for (const line of text.split('\n')) {
    const fields = line.trim().split(/[ \t\r]+/);
    const number = (/** @type {number} */ k) => BigInt(fields[k].replace('+', ''));
    if (fields[0] === 'p') {
      persons = fields[1] === 'asn';
      for (let k = Number(fields[2]); k > 0; k--) supplies.push(persons ? -1n : 0n);
    } else if (fields[0] === 'n') supplies[Number(fields[1]) - 1] = persons ? 1n : number(2);
    else if (fields[0] === 'a') {
      const [least, most, cost] = persons ? [0n, 1n, number(3)] : [number(3), number(4), number(5)];
      arcs.push({ tail: Number(fields[1]), head: Number(fields[2]), least, most, cost });
    }
  }
  return Object.assign(new Network(supplies, arcs), { isAssignment: persons });
}
