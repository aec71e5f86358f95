// @ts-check
// This file remembers the occupied rectangles of a picture, so that no label covers them. A
// rectangle has its edges left, top, right, bottom. An index by square finds them fast.
const SQUARE = 64;

export class Room {
  constructor() {
    /** @type {Map<string, Edges[]>} */
    this.taken = new Map();
  }

  /** @type {(edges: Edges) => void} */
  take(edges) {
    for (const square of squaresOf(edges)) {
      if (!this.taken.has(square)) this.taken.set(square, []);
      this.taken.get(square).push(edges);
    }
  }

  /** @type {(edges: Edges) => boolean} */
  isFree(edges) {
    const [left, top, right, bottom] = edges;
    const over = (/** @type {Edges} */ other) =>
      other[0] < right && left < other[2] && other[1] < bottom && top < other[3];
    return !squaresOf(edges).some((square) => (this.taken.get(square) || []).some(over));
  }

  // This method returns the edges around all occupied rectangles.
  /** @type {() => Edges} */
  bounds() {
    const found = [...this.taken.values()].flat();
    return /** @type {Edges} */ ([Math.min, Math.min, Math.max, Math.max].map((end, side) =>
      found.map((edges) => edges[side]).reduce((a, b) => end(a, b))
    ));
  }

  // This method occupies the first spot around which a rectangle of this size is free, and returns
  // the spot; null if there is none.
  /** @type {(spots: Spot[], size: Size) => Spot | null} */
  first(spots, [wide, high]) {
    for (const [x, y] of spots) {
      /** @type {Edges} */
      const edges = [x - wide / 2, y - high / 2, x + wide / 2, y + high / 2];
      if (this.isFree(edges)) {
        this.take(edges);
        return [x, y];
      }
    }
    return null;
  }
}

// This function returns the squares that a rectangle touches.
/** @type {(edges: Edges) => string[]} */
function squaresOf(edges) {
  const [left, top, right, bottom] = edges.map((edge) => Math.floor(edge / SQUARE)), found = [];
  for (let x = left; x <= right; x++) for (let y = top; y <= bottom; y++) found.push(`${x} ${y}`);
  return found;
}
