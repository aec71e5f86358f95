// @ts-check
// This file finds the name that is most similar to another one, in the way of Python's difflib.

// The greatest number of names to search, and the least similarity.
const MOST = 10000, CUTOFF = 0.6;

// This function finds the longest common part of two texts within some bounds. It returns where it
// begins in each text, and its length.
/**
 * @param {string[]} a
 * @param {string[]} b
 * @param {Map<string, number[]>} places
 * @param {number[]} bounds
 * @returns {[number, number, number]}
 */
function longest(a, b, places, [alow, ahigh, blow, bhigh]) {
  /** @type {[number, number, number]} */
  let best = [alow, blow, 0];
  /** @type {Map<number, number>} */
  let lengths = new Map();
  for (let i = alow; i < ahigh; i++) {
    const next = new Map();
    for (const j of places.get(a[i]) || []) {
      if (j < blow || j >= bhigh) continue;
      const length = (lengths.get(j - 1) || 0) + 1;
      next.set(j, length);
      if (length > best[2]) best = [i - length + 1, j - length + 1, length];
    }
    lengths = next;
  }
  return best;
}

/**
 * @param {string[]} a
 * @param {string[]} b
 * @param {Map<string, number[]>} places
 * @param {number[]} bounds
 * @returns {number}
 */
function agreeing(a, b, places, bounds) {
  const [i, j, length] = longest(a, b, places, bounds), [alow, ahigh, blow, bhigh] = bounds;
  if (!length) return 0;
  return length
    + agreeing(a, b, places, [alow, i, blow, j])
    + agreeing(a, b, places, [i + length, ahigh, j + length, bhigh]);
}

// This function returns the names that differ from a name only in capitals, else the most similar
// one among the first MOST.
/** @type {(name: string, names: string[], fold: (name: string) => string) => string[]} */
export function nearTo(name, names, fold) {
  const same = names.filter((other) => fold(other) === fold(name));
  if (same.length) return same;
  const b = [...name], places = new Map();
  b.forEach((c, j) => (places.has(c) ? places.get(c).push(j) : places.set(c, [j])));
  let best = null, most = CUTOFF;
  for (const other of names.slice(0, MOST)) {
    const a = [...other], total = a.length + b.length;
    if (2 * Math.min(a.length, b.length) < most * total) continue;
    const ratio = 2 * agreeing(a, b, places, [0, a.length, 0, b.length]) / total;
    if (ratio > most || (ratio === most && (best === null || other > best))) {
      best = other;
      most = ratio;
    }
  }
  return best === null ? [] : [best];
}
