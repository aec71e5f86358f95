// @ts-check
// This file draws pictures of many places, each of which only sends or only takes, as SVG: a row
// for each route, in columns. The rows of one place stand together, beside its box. The place at
// the other end may appear several times.
import {
  SOFT,
  arrow,
  boxAt,
  boxSwatch,
  framed,
  labelAt,
  labelSize,
  legendOf,
  lineBetween,
  textAt,
  textWidth,
  xmlText,
} from './drawing.js';
import { slotsOf } from './together.js';

// The routes of a place that stand beside its box, by their numbers.
/** @typedef {{ node: number, links: number[] }} Block */

// A side with more places than MANY is drawn as rows. Then: the height of a row, the least height
// of a block, the gaps between blocks and between columns, the greatest width of all columns (names
// are then 9 pixels high on a page of 1360), and the most rows of a block.
const MANY = 20, ROW = 20, LEAST = 36, BELOW = 8, BESIDE = 40, WIDE = 1160, ROWS = 40;
// The edge of a box that appears several times.
const DASHED = ' stroke-dasharray="4 3"';

/** @type {(links: SceneLink[]) => [tails: Set<number>, heads: Set<number>]} */
const endsOf = (links) => [
  new Set(links.map(({ tail }) => tail)),
  new Set(links.map(({ head }) => head)),
];

// This function says whether to draw a scene as rows: many places send or take, no route continues
// another, and not all places have spots.
/** @type {(scene: Scene) => boolean} */
export function rowsAreBetter({ nodes, links }) {
  const [tails, heads] = endsOf(links);
  return Math.max(tails.size, heads.size) > MANY
    && ![...tails].some((node) => heads.has(node))
    && !nodes.every(({ spot }) => spot);
}

// This function draws a scene. Its routes have the rows that they have in a scene with all routes.
/** @type {(scene: Scene, whole: Scene) => string} */
export function rowsSvg(scene, whole) {
  const [tails, heads] = endsOf(whole.links);
  const drawing = new Rows(scene, whole, tails.size <= heads.size ? 0 : 1);
  const { blocks, wide } = drawing;
  const columns = inColumns(blocks, wide);
  const body = columns.flatMap((column, number) => {
    let below = 0;
    return column.flatMap((block) => {
      const top = below;
      below += heightOf(block) + BELOW;
      return drawing.block(block, number * (wide + BESIDE), top);
    });
  });
  /** @type {Spot[]} */
  const corners = [
    [0, 0],
    [columns.length * (wide + BESIDE) - BESIDE, Math.max(...columns.map(totalOf))],
  ];
  /** @type {LegendEntry} */
  const several = [
    22,
    (x) => boxAt({ x: x + 11, y: -4, width: 22, height: 14 }, 'takes', false, DASHED),
    'stands several times',
  ];
  return framed(
    corners,
    scene,
    body,
    legendOf(scene, boxSwatch, undefined, drawing.hasSeveral() ? [several] : []),
    'rows'
  );
}

// A picture of a scene, with a row for each route of another one that has all of its routes. The
// places of one side have blocks of rows; side 0 is the side that sends.
class Rows {
  /**
   * @param {Scene} scene
   * @param {Scene} whole
   * @param {number} side
   */
  constructor(scene, whole, side) {
    const { nodes, links, groups } = whole;
    const ends = endsOf(links).map((set) => [...set]);
    const blocks = blocksOf(whole, side);
    ends[side] = blocks.map(({ node }) => node);
    /** @type {(node: SceneNode, hasNote: boolean) => number} */
    const nameWidth = ({ short, note }, hasNote) =>
      Math.max(textWidth(short, 12), hasNote ? textWidth(note, 11) : 0);
    const widths = [0, 1].map((end) =>
      14 + Math.max(...ends[end].map((node) => nameWidth(nodes[node], end === side)))
    );
    const between = Math.max(90, 56 + Math.max(...links.map((link) => labelSize(link.label)[0])));
    /** @type {Map<number, number>} */
    const count = new Map();
    const other = links.map(({ tail, head }) => (side ? tail : head));
    for (const node of [...ends[side], ...other]) count.set(node, (count.get(node) || 0) + 1);
    const blocking = new Set(groups.flatMap((group) => [...group]));
    this.nodes = scene.nodes;
    this.links = links;
    this.drawn = new Map(slotsOf(scene, whole).map((slot, k) => [slot, scene.links[k]]));
    this.side = side;
    this.blocks = blocks;
    this.widths = widths;
    this.between = between;
    this.wide = widths[0] + widths[1] + between;
    this.count = count;
    this.blocking = blocking;
  }

  hasSeveral() { return [...this.count.values()].some((times) => times > 1); }

  // This method draws a place, its routes, and the places at their other ends.
  /** @type {(block: Block, left: number, top: number) => string[]} */
  block({ node, links }, left, top) {
    const high = heightOf({ links }), begin = left + this.widths[0], end = begin + this.between;
    const rows = links.flatMap((number, place) => {
      const y = top + (place + 0.5) * high / links.length, link = this.drawn.get(number);
      const { tail, head } = this.links[number];
      return [
        link ? arrow(link, lineBetween(begin, y, end)) : '',
        link && link.label ? labelAt(link, (begin + end) / 2 - 6, y) : '',
        this.place(this.side ? tail : head, 1 - this.side, left, y, ROW - 3),
      ];
    });
    return [...rows, this.place(node, this.side, left, top + high / 2, high)];
  }

  // This method draws the box of a place on one side of its column. `y` is the middle of the box. A
  // box that is high enough shows the note, too.
  /**
   * @param {number} number
   * @param {number} side
   * @param {number} left
   * @param {number} y
   * @param {number} height
   */
  place(number, side, left, y, height) {
    const { name, short, note, kind } = this.nodes[number];
    const width = this.widths[side];
    const hasNote = height >= LEAST && note;
    const x = left + (side ? this.wide - width / 2 : width / 2);
    const dashed = this.count.get(number) > 1 ? DASHED : '';
    const more = hasNote
      ? textAt(x, y + 12, 11, note, `text-anchor="middle" class="note" fill="${SOFT}"`)
      : '';
    const box = boxAt({ x, y, width, height }, kind, this.blocking.has(number), dashed);
    return `<g><title>${xmlText(note ? `${name}: ${note}` : name)}</title>${box}`
      + `${textAt(x, y + (hasNote ? -3 : 4), 12, short)}${more}</g>`;
  }
}

// This function returns the blocks of the places on a side, and of the places without a drawn
// route. A place with many routes gets several blocks. The widest routes come first.
/** @type {(scene: Scene, side: number) => Block[]} */
function blocksOf({ nodes, links }, side) {
  /** @type {number[][]} */
  const own = nodes.map(() => []);
  /** @type {Block[]} */
  const blocks = [];
  const others = endsOf(links)[1 - side];
  links.forEach(({ tail, head }, number) => own[side ? head : tail].push(number));
  own.forEach((found, node) => {
    if (!found.length && others.has(node)) return;
    found.sort((a, b) => links[b].width - links[a].width);
    for (let begin = 0; begin < Math.max(1, found.length); begin += ROWS) {
      blocks.push({ node, links: found.slice(begin, begin + ROWS) });
    }
  });
  return blocks;
}

/** @type {(block: { links: number[] }) => number} */
const heightOf = ({ links }) => Math.max(LEAST, ROW * links.length);

// This function returns the height of a column of blocks.
/** @type {(blocks: Block[]) => number} */
const totalOf = (blocks) => blocks.reduce((sum, block) => sum + heightOf(block) + BELOW, -BELOW);

// This function puts the blocks in columns: as many as fit, or until the picture is twice as wide
// as high.
/** @type {(blocks: Block[], wide: number) => Block[][]} */
function inColumns(blocks, wide) {
  const fit = Math.max(1, Math.floor((WIDE + BESIDE) / (wide + BESIDE)));
  let count = 1, columns = [blocks];
  while (count < fit && Math.max(...columns.map(totalOf)) * 2 > count * (wide + BESIDE)) {
    columns = split(blocks, ++count);
  }
  return columns;
}

// This function splits the blocks into at most `count` columns of about the same height.
/** @type {(blocks: Block[], count: number) => Block[][]} */
function split(blocks, count) {
  for (let limit = Math.max(totalOf(blocks) / count, ...blocks.map(heightOf)); ; limit *= 1.03) {
    /** @type {Block[][]} */
    const columns = [[]];
    for (const block of blocks) {
      const last = columns[columns.length - 1];
      if (last.length && totalOf([...last, block]) > limit) columns.push([block]);
      else last.push(block);
    }
    if (columns.length <= count) return columns;
  }
}
