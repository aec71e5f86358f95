// @ts-check
// This file places boxes and curves in a picture: on a map by x and y, else in columns by the
// distance of each place from the places that send.

// The distance between places on a map, the gap between boxes, and the number of rounds that move
// boxes apart.
const SPREAD = 235, APART = 14, ROUNDS = 60;
// The number of times that the order within columns is improved.
const SWEEPS = 6;
// The parts of a link at which its label may stand.
export const PARTS = [0.45, 0.55, 0.35, 0.65, 0.25, 0.75, 0.15, 0.85];

// This function lays out a picture. A task has the sizes of the boxes, their spots on a map or
// null, the links by their nodes from 0, and the nodes that send. A layout has the boxes by their
// centres and, for each link, its curve of cubic pieces and the spots for its label, best first.
/** @type {(task: LayoutTask) => Layout} */
export function laidOut(task) {
  const boxes = task.spots ? parted(mapBoxes(task, SPREAD)) : columnBoxes(task);
  const curves = straight(boxes, task.links);
  return { boxes, curves, labels: curves.map(spotsAlong) };
}

// This function returns boxes on a map; y points up.
/** @type {(task: Pick<LayoutTask, 'sizes' | 'spots'>, spread: number) => Box[]} */
export function mapBoxes({ sizes, spots }, spread) {
  // Half coordinates, so that no difference overflows.
  const xs = spots.map(([x]) => x / 2), ys = spots.map(([, y]) => y / 2);
  const [left, right, low, high] = [least(xs), most(xs), least(ys), most(ys)];
  const wide = spread * Math.sqrt(xs.length) + 200;
  const scale = left === right && low === high
    ? 1
    : Math.min(wide / Math.max(right - left, 1e-9), wide * 0.72 / Math.max(high - low, 1e-9));
  return xs.map((x, k) => ({
    x: (x - left) * scale,
    y: (high - ys[k]) * scale,
    width: sizes[k][0],
    height: sizes[k][1],
  }));
}

/** @type {(numbers: number[]) => number} */
const least = (numbers) => numbers.reduce((a, b) => Math.min(a, b), Infinity);
/** @type {(numbers: number[]) => number} */
const most = (numbers) => numbers.reduce((a, b) => Math.max(a, b), -Infinity);

// This function returns the least and the greatest x and y of points.
/** @type {(points: Spot[]) => Edges} */
export function edgesOf(points) {
  const [xs, ys] = [0, 1].map((axis) => (points.length ? points.map((point) => point[axis]) : [0]));
  return [least(xs), least(ys), most(xs), most(ys)];
}

// This function moves overlapping boxes apart.
/** @type {(boxes: Box[]) => Box[]} */
function parted(boxes) {
  for (let round = 0, moved = true; round < ROUNDS && moved; round++) {
    moved = false;
    for (let i = 0; i < boxes.length; i++) {
      for (let j = 0; j < i; j++) {
        const [a, b] = [boxes[i], boxes[j]];
        const dx = (a.width + b.width) / 2 + APART - Math.abs(a.x - b.x);
        const dy = (a.height + b.height) / 2 + APART - Math.abs(a.y - b.y);
        if (dx <= 0.1 || dy <= 0.1) continue;
        const axis = dy <= dx ? 'y' : 'x';
        const step = Math.min(dx, dy) / 2 * (a[axis] < b[axis] ? -1 : 1);
        a[axis] += step;
        b[axis] -= step;
        moved = true;
      }
    }
  }
  return boxes;
}

// This function counts for each node the links from the nearest start. A node that no start reaches
// begins a new search: first the nodes without incoming links, then the rest.
/** @type {(count: number, links: Ends[], starts: number[]) => number[]} */
export function levelsOf(count, links, starts) {
  /** @type {number[][]} */
  const after = Array.from({ length: count }, () => []);
  /** @type {number[]} */
  const levels = new Array(count).fill(-1);
  for (const { tail, head } of links) after[tail].push(head);
  /** @type {(begins: number[]) => void} */
  const reach = (begins) => {
    const waiting = begins.map((node) => [node, 0]);
    for (const [node, level] of waiting) {
      if (levels[node] >= 0) continue;
      levels[node] = level;
      for (const head of after[node]) waiting.push([head, level + 1]);
    }
  };
  const heads = new Set(links.map(({ head }) => head));
  reach(starts);
  reach(after.map((_, node) => node).filter((node) => !heads.has(node)));
  for (let node = 0; node < count; node++) reach([node]);
  return levels;
}

// This function orders the nodes in columns so that few links cross. Each node follows the mean
// position of its neighbours in the columns before or after.
/** @type {(task: LayoutTask) => number[][]} */
function orderedColumns({ sizes, links, starts }) {
  const levels = levelsOf(sizes.length, links, starts);
  /** @type {number[][]} */
  const columns = Array.from({ length: most([-1, ...levels]) + 1 }, () => []);
  levels.forEach((level, node) => columns[level].push(node));
  /** @type {number[][]} */
  const near = sizes.map(() => []);
  /** @type {number[]} */
  const place = new Array(sizes.length).fill(0);
  for (const { tail, head } of links) {
    near[tail].push(head);
    near[head].push(tail);
  }
  /** @type {(column: number[]) => void} */
  const number = (column) =>
    column.forEach((node, k) => { place[node] = (k + 0.5) / column.length; });
  columns.forEach(number);
  /** @type {(node: number, isBefore: boolean) => number} */
  const middleOf = (node, isBefore) => {
    const others = near[node].filter((other) =>
      isBefore ? levels[other] < levels[node] : levels[other] > levels[node]
    );
    return others.length
      ? others.reduce((sum, other) => sum + place[other], 0) / others.length
      : place[node];
  };
  for (let sweep = 0; sweep < SWEEPS; sweep++) {
    const forth = sweep % 2 === 0;
    for (const column of forth ? columns : [...columns].reverse()) {
      const middle = new Map(column.map((node) => [node, middleOf(node, forth)]));
      column.sort((a, b) => middle.get(a) - middle.get(b) || a - b);
      number(column);
    }
  }
  return columns;
}

// This function returns boxes in columns.
/** @type {(task: LayoutTask) => Box[]} */
function columnBoxes(task) {
  const { sizes } = task, columns = orderedColumns(task);
  const tallest = most([0, ...columns.map((column) => column.length)]);
  /** @type {Box[]} */
  const boxes = [];
  let across = 0;
  for (const column of columns) {
    const wide = most(column.map((node) => sizes[node][0]));
    const step = 62 * Math.min(3, Math.max(1, tallest / column.length * 0.8));
    column.forEach((node, k) => {
      boxes[node] = {
        x: across + wide / 2,
        y: (k - (column.length - 1) / 2) * step,
        width: sizes[node][0],
        height: sizes[node][1],
      };
    });
    across += wide + 170;
  }
  return boxes;
}

// This function returns straight links between boxes. Several links between the same boxes are
// bowed.
/** @type {(boxes: Box[], links: Ends[]) => Curve[]} */
function straight(boxes, links) {
  /** @type {Map<number, number>} */
  const seen = new Map();
  return links.map(({ tail, head }) => {
    const key = Math.min(tail, head) * boxes.length + Math.max(tail, head);
    const nth = seen.get(key) || 0;
    seen.set(key, nth + 1);
    const past = around(boxes, boxes[tail], boxes[head]);
    const bow = past
      ? past + nth * 26
      : Math.floor((nth + 1) / 2) * 26 * (nth % 2 ? 1 : -1) * (tail < head ? 1 : -1);
    return tail === head ? loopAt(boxes[tail]) : bowed(boxes[tail], boxes[head], bow);
  });
}

// This function returns how far a link between two boxes, one above the other, bends around the
// boxes between them.
/** @type {(boxes: Box[], a: Box, b: Box) => number} */
function around(boxes, a, b) {
  const between = boxes.filter((box) =>
    (box.y - a.y) * (box.y - b.y) < 0 && Math.abs(box.x - (a.x + b.x) / 2) < box.width / 2
  );
  return Math.abs(a.x - b.x) < (a.width + b.width) / 2 && between.length
    ? most(between.map((box) => box.width)) / 2 + 20
    : 0;
}

// This function returns the curve of a link from a box to itself, at the upper right corner.
/** @type {(box: Box) => Curve} */
function loopAt({ x, y, width, height }) {
  const right = x + width / 2, top = y - height / 2;
  return [[right - 14, top], [right - 14, top - 34], [right + 34, top + 10], [right, top + 10]];
}

// This function returns a curve between two boxes whose middle is `bow` away from the straight
// line.
/** @type {(tail: Box, head: Box, bow: number) => Curve} */
function bowed(tail, head, bow) {
  const dx = head.x - tail.x, dy = head.y - tail.y, far = Math.hypot(dx, dy) || 1;
  /** @type {Spot} */
  const over = [tail.x + dx / 2 - dy / far * bow * 2, tail.y + dy / 2 + dx / far * bow * 2];
  const begin = edgeOf(tail, over);
  const end = edgeOf(head, over);
  /** @type {(spot: Spot) => Spot} */
  const towards = ([x, y]) => [x + (over[0] - x) * 2 / 3, y + (over[1] - y) * 2 / 3];
  return [begin, towards(begin), towards(end), end];
}

// This function returns the point where the line from the centre of a box to another point leaves
// the box.
/** @type {(box: Box, to: Spot) => Spot} */
function edgeOf(box, to) {
  const dx = to[0] - box.x, dy = to[1] - box.y;
  const part = Math.min(
    dx ? box.width / 2 / Math.abs(dx) : Infinity,
    dy ? box.height / 2 / Math.abs(dy) : Infinity,
    1
  );
  return [box.x + dx * part, box.y + dy * part];
}

// This function returns points along a curve of cubic pieces.
/**
 * @param {Curve} points
 * @returns {Spot[]}
 */
export function samples(points, count = 24) {
  /** @type {Spot[]} */
  const found = [];
  for (let begin = 0; begin < points.length - 3; begin += 3) {
    for (let step = 0; step < count; step++) {
      const part = step / count;
      const rest = 1 - part;
      const weights = [rest ** 3, 3 * rest * rest * part, 3 * rest * part * part, part ** 3];
      const along = (/** @type {0 | 1} */ axis) =>
        weights.reduce((sum, weight, k) => sum + weight * points[begin + k][axis], 0);
      found.push([along(0), along(1)]);
    }
  }
  return [...found, points[points.length - 1]];
}

// This function returns spots along a curve: first slightly before the middle, then farther and
// farther away.
/** @type {(points: Curve) => Spot[]} */
function spotsAlong(points) {
  const along = samples(points, 12);
  return PARTS.map((part) => along[Math.floor(part * (along.length - 1))]);
}
