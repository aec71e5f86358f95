// @ts-check
// This file draws pictures of many places as SVG: dots, with as many names and amounts as fit.
import {
  COLOURS,
  PAGE,
  f,
  framed,
  growthOf,
  isQuiet,
  labelAt,
  labelSize,
  legendOf,
  tagAt,
  xmlText,
} from './drawing.js';
import { PARTS, edgesOf, levelsOf, mapBoxes } from './layout.js';
import { Room } from './room.js';

/** @type {Record<SceneNode['kind'], string>} */
const DOTS = { sends: '#5b9a52', takes: '#4d7fb3', passes: '#8a949e' };
// The edge of a dot in a bottleneck.
const BLOCKING = ` stroke="${COLOURS.limits}" stroke-width="2"`;
// The radius of a dot, the distance of dots within a block, the greatest and the least distance
// between blocks, and how many names and amounts the picture tries to place.
const ROUND = 3.4, STEP = 16, FAR = 220, CLOSE = 90, TRIED = 1000;

// This function draws scenes, beside one that has all of their routes. Dots are on a map, or in
// blocks by their distance from the places that send.
/** @type {(scenes: Scene[], whole: Scene) => string[]} */
export function dotsSvgs(scenes, whole) {
  const spots = dotSpots(whole, weightsOf(whole, importantOf(whole), blockingOf(whole)));
  const drawn = scenes.map((scene) => contentOf(scene, spots));
  const corners = drawn.flatMap(({ corners: found }) => found);
  return drawn.map(({ body }, k) =>
    framed(corners, scenes[k], body, legendOf(scenes[k], dotSwatch, dotSample), 'dots')
  );
}

/** @type {(scene: Scene) => SceneLink[]} */
const importantOf = ({ links }) => links.filter((link) => !isQuiet(link));

/** @type {(scene: Scene) => Set<number>} */
const blockingOf = ({ groups }) => new Set(groups.flatMap((group) => [...group]));

// This function returns what a picture has, and its corners. Routes that matter are arrows.
/** @type {(scene: Scene, spots: Spot[]) => { body: string[], corners: Spot[] }} */
function contentOf(scene, spots) {
  const links = importantOf(scene), blocking = blockingOf(scene);
  const weights = weightsOf(scene, links, blocking);
  const [tags, [left, top, right, bottom]] = dotLabels(scene.nodes, links, weights, spots);
  const marked = (/** @type {SceneLink} */ { kind }) => Number(kind !== 'flowing');
  const order = [...links].sort((a, b) => marked(a) - marked(b) || b.width - a.width);
  const body = order.map((link) =>
    dotRoute(link, link.width / 2, spots[link.tail], spots[link.head])
  );
  scene.nodes.forEach((node, k) => {
    const edge = blocking.has(k) ? BLOCKING : '';
    const [x, y] = spots[k].map(f);
    const title = xmlText(node.note ? `${node.name}: ${node.note}` : node.name);
    body.push(
      `<circle cx="${x}" cy="${y}" r="${node.note ? ROUND : 2.2}" fill="${DOTS[node.kind]}"${edge}>`
        + `<title>${title}</title></circle>`
    );
  });
  return { body: [...body, ...tags], corners: [[left, top], [right, bottom]] };
}

// This function weighs the places: those in bottlenecks come first, then those with the widest
// routes.
/** @type {(scene: Scene, links: SceneLink[], blocking: Set<number>) => number[]} */
function weightsOf({ nodes }, links, blocking) {
  const weights = nodes.map((_, k) => (blocking.has(k) ? 1e9 : 0));
  for (const { tail, head, width } of links) {
    weights[tail] += width;
    weights[head] += width;
  }
  return weights;
}

// This function draws an arrow between two dots. A full route has a bar before the arrowhead.
/**
 * @param {Pick<SceneLink, 'kind' | 'title'>} link
 * @param {number} width
 * @param {Spot} begin
 * @param {Spot} end
 * @returns {string}
 */
function dotRoute({ kind, title }, width, begin, end) {
  const far = Math.hypot(end[0] - begin[0], end[1] - begin[1]) || 1;
  const dx = (end[0] - begin[0]) / far, dy = (end[1] - begin[1]) / far;
  const half = 2 + width, base = ROUND + Math.min(far / 2, 5 + 1.6 * width);
  /** @type {(spot: number[]) => string} */
  const corner = ([back, aside]) =>
    `${f(end[0] - dx * back - dy * aside)},${f(end[1] - dy * back + dx * aside)}`;
  /** @type {(corners: number[][]) => string} */
  const path = (corners) => `M${corners.map(corner).join(' L')} Z`;
  const shape = [
    [far, width / 2],
    [base, width / 2],
    [base, half],
    [ROUND, 0],
    [base, -half],
    [base, -width / 2],
    [far, -width / 2],
  ];
  const over = half + 1.5;
  const bar = [[base + 1.5, over], [base + 1.5, -over], [base + 3, -over], [base + 3, over]];
  const barred = kind === 'full' || kind === 'limits' ? ` ${path(bar)}` : '';
  return `<path class="${kind}" d="${path(shape)}${barred}" fill="${COLOURS[kind]}"`
    + ` fill-opacity="0.75"><title>${xmlText(title)}</title></path>`;
}

// This function places the names of the greatest places and the amounts of the greatest routes, in
// turn, wherever they cover no dot and no other label. It returns the labels and the edges of the
// whole.
/**
 * @param {SceneNode[]} nodes
 * @param {SceneLink[]} links
 * @param {number[]} weights
 * @param {Spot[]} spots
 * @returns {[string[], Edges]}
 */
function dotLabels(nodes, links, weights, spots) {
  /** @type {string[]} */
  const lines = [];
  const room = new Room(), growth = growthOf(edgesOf(spots));
  for (const [x, y] of spots) room.take([x - ROUND, y - ROUND, x + ROUND, y + ROUND]);
  const named = nodes
    .map((_, k) => k)
    .filter((k) => weights[k])
    .sort((a, b) => weights[b] - weights[a])
    .slice(0, TRIED);
  const told = links.filter(({ label }) => label).sort((a, b) => b.width - a.width).slice(0, TRIED);
  for (let k = 0; k < Math.max(named.length, told.length); k++) {
    if (k < named.length) {
      const { short } = nodes[named[k]];
      const size = labelSize(short, growth);
      const spot = room.first(spotsBeside(spots[named[k]], size), size);
      if (spot) lines.push(tagAt(short, ...spot, growth, 'class="name"'));
    }
    if (k < told.length) {
      const { label, tail, head } = told[k], size = labelSize(label, growth);
      const spot = room.first(spotsBetween(spots[tail], spots[head], size), size);
      if (spot) lines.push(labelAt(told[k], ...spot, growth));
    }
  }
  return [lines, room.bounds()];
}

// This function returns spots for the amount of a route, if the route is long enough to show its
// arrow.
/** @type {(from: Spot, to: Spot, size: Size) => Spot[]} */
function spotsBetween([ax, ay], [bx, by], [wide]) {
  return Math.hypot(bx - ax, by - ay) < wide + 20
    ? []
    : PARTS.map((part) => [ax + (bx - ax) * part, ay + (by - ay) * part]);
}

// This function returns spots for the name of a dot: right, left, above and below.
/** @type {(spot: Spot, size: Size) => Spot[]} */
function spotsBeside([x, y], [wide, high]) {
  const aside = ROUND + 1 + wide / 2, over = ROUND + high / 2;
  return [[x + aside, y], [x - aside, y], [x, y - over], [x, y + over]];
}

/** @type {(scene: Scene, weights: number[]) => Spot[]} */
function dotSpots(scene, weights) {
  const { nodes } = scene;
  const onMap = nodes.map((node) => node.spot);
  if (!onMap.length || !onMap.every(Boolean)) return blockSpots(levelBlocks(scene, weights));
  /** @type {Size[]} */
  const sizes = nodes.map(() => [0, 0]);
  const task = { sizes, spots: onMap };
  return mapBoxes(task, (PAGE - 200) / Math.sqrt(nodes.length)).map(({ x, y }) => [x, y]);
}

// This function groups the places by their distance from the places that send. Within a block the
// greatest come last, at its right, where names have room.
/** @type {(scene: Scene, weights: number[]) => number[][]} */
function levelBlocks({ nodes, links }, weights) {
  const starts = nodes.map((_, k) => k).filter((k) => nodes[k].kind === 'sends');
  const levels = levelsOf(nodes.length, links, starts);
  /** @type {number[][]} */
  const blocks = [];
  for (const level of levels) blocks[level] = [];
  for (const node of nodes.map((_, k) => k).sort((a, b) => weights[a] - weights[b])) {
    blocks[levels[node]].push(node);
  }
  return blocks;
}

// This function returns the spots of dots in blocks.
/** @type {(blocks: number[][]) => Spot[]} */
function blockSpots(blocks) {
  const count = blocks.reduce((sum, block) => sum + block.length, 0);
  const high = Math.max(8, Math.ceil(Math.sqrt(count)));
  const wides = blocks.map((block) => Math.ceil(block.length / high) * STEP);
  const left = PAGE - wides.reduce((sum, wide) => sum + wide, 0);
  const between = Math.min(FAR, Math.max(CLOSE, left / Math.max(1, blocks.length)));
  const total = wides.reduce((sum, wide) => sum + wide + between, 0);
  // Rows are as far apart as names are high. Names are larger in a wider picture.
  const down = STEP * growthOf([0, 0, total, 0]);
  /** @type {Spot[]} */
  const spots = [];
  let across = 0;
  blocks.forEach((block, level) => {
    block.forEach((node, nth) => {
      spots[node] = [across + Math.floor(nth / high) * STEP, nth % high * down];
    });
    across += wides[level] + between;
  });
  return spots;
}

// This function draws a dot for the legend: of a kind, or in a bottleneck.
/** @type {Swatch} */
function dotSwatch(kind, x) {
  const [fill, edge] = kind === 'blocks' ? [DOTS.passes, BLOCKING] : [DOTS[kind], ''];
  return `<circle cx="${f(x + 11)}" cy="-4" r="5" fill="${fill}"${edge}/>`;
}

// This function draws an arrow of a kind for the legend.
/** @type {(kind: SceneLink['kind'], x: number) => string} */
const dotSample = (kind, x) => dotRoute({ kind, title: '' }, 2.5, [x, -4], [x + 42, -4]);
