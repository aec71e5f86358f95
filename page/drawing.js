// @ts-check
// This file draws the parts of pictures as SVG: colours, texts, arrows, the frame and the legend.
import { countOf } from './faults.js';
import { edgesOf, samples } from './layout.js';

const FONT = 'font-family="DejaVu Sans, Verdana, Helvetica, sans-serif"';
/** @type {[SceneNode['kind'], string][]} */
const KINDS = [['sends', 'sends'], ['takes', 'takes'], ['passes', 'passes on']];
const INK = '#1f2933';
export const SOFT = '#52606d', SHADE = '#f9d5cd', LEFT = 'text-anchor="start"';
/** @type {Record<SceneLink['kind'], string>} */
export const COLOURS = {
  full: '#c2410c',
  limits: '#c2410c',
  forces: '#c2410c',
  flowing: '#3d6d94',
  idle: '#b8c0c8',
  other: '#8a949e',
};
/** @type {Record<SceneNode['kind'], string>} */
const FILLS = { sends: '#dff0dc', takes: '#dbe8f7', passes: '#ffffff' };
const BLOCKS = 'places that must send or take more than they can';
// A picture wider than this has larger headings and legends.
export const PAGE = 1400;
// Letters that are as wide as they are high.
const FULL_WIDTH = new RegExp(
  '[\\u1100-\\u115f\\u2e80-\\ua4cf\\uac00-\\ud7a3\\uf900-\\ufaff\\ufe30-\\ufe6f\\uff00-\\uff60'
    + '\\uffe0-\\uffe6]'
);

// ---- Texts

/** @type {(text: string) => string} */
export const xmlText = (text) =>
  String(text)
    .replace(/[\ufffe\uffff]/g, '?')
    .replace(/&/g, '&amp;')
    .replace(/</g, '&lt;')
    .replace(/>/g, '&gt;');
// This function estimates the width of a text in pixels.
/** @type {(text: string, size: number) => number} */
export const textWidth = (text, size) =>
  [...text].reduce((sum, letter) => sum + (FULL_WIDTH.test(letter) ? 1 : 0.62), 0) * size;
/** @type {(number: number) => string} */
export const f = (number) => number.toFixed(1);
/** @type {(x: number, y: number, size: number, text: string, more?: string) => string} */
export const textAt = (x, y, size, text, more = 'text-anchor="middle"') =>
  `<text x="${f(x)}" y="${f(y)}" font-size="${size}" ${more}>${xmlText(text)}</text>`;

// ---- Places and routes

// This function says whether a route matters less.
/** @type {(link: { kind: SceneLink['kind'] }) => boolean} */
export const isQuiet = ({ kind }) => kind === 'idle' || kind === 'other';

// This function returns the numbers of links in drawing order: those that matter less first, then
// the widest.
/** @type {(links: SceneLink[]) => number[]} */
export function orderOf(links) {
  const quiet = (/** @type {number} */ k) => Number(isQuiet(links[k]));
  return links
    .map((_, k) => k)
    .sort((a, b) => quiet(b) - quiet(a) || links[b].width - links[a].width);
}

/**
 * @param {Box} box
 * @param {SceneNode['kind']} kind
 */
export function boxAt({ x, y, width, height }, kind, blocks = false, more = '') {
  const [edge, wide] = blocks ? [COLOURS.limits, 2.2] : [SOFT, 1.1];
  return `<rect class="${kind}" x="${f(x - width / 2)}" y="${f(y - height / 2)}"`
    + ` width="${f(width)}" height="${height.toFixed(0)}" rx="6" fill="${FILLS[kind]}"`
    + ` stroke="${edge}" stroke-width="${wide}"${more}/>`;
}

/** @type {(curve: Curve) => string} */
export const pathOf = ([begin, ...points]) =>
  `M${begin.map(f)} C${points.map((point) => point.map(f)).join(' ')}`;

// This function draws the curve of a route and its arrowhead. A full route has a bar before the
// arrowhead.
/** @type {(link: Pick<SceneLink, 'kind' | 'width' | 'title'>, points: Curve) => string} */
export function arrow({ kind, width, title }, points) {
  const colour = COLOURS[kind];
  const tip = points[points.length - 1];
  const before = samples(points).slice(-4)[0];
  const far = Math.hypot(tip[0] - before[0], tip[1] - before[1]) || 1;
  const dx = (tip[0] - before[0]) / far, dy = (tip[1] - before[1]) / far;
  const long = 7 + 1.5 * width, wide = 3 + 0.95 * width;
  /** @type {Spot} */
  const base = [tip[0] - dx * long, tip[1] - dy * long];
  const last = points[points.length - 2];
  /** @type {Curve} */
  const curve = [
    ...points.slice(0, -2),
    [last[0] - dx * long * 0.7, last[1] - dy * long * 0.7],
    [base[0] + dx, base[1] + dy],
  ];
  /** @type {(spot: Spot, half: number) => string[][]} */
  const across = ([x, y], half) => [
    [x - dy * half, y + dx * half],
    [x + dy * half, y - dx * half],
  ].map((point) => point.map(f));
  const tips = [tip.map(f), ...across(base, wide)].join(' ');
  let bar = '';
  if (kind === 'full' || kind === 'limits') {
    const [from, to] = across([base[0] - 3 * dx, base[1] - 3 * dy], 5 + 0.9 * width);
    bar = `<path d="M${from} L${to}" stroke="${colour}" stroke-width="2.6"/>`;
  }
  return `<g class="${kind}"><title>${xmlText(title)}</title>`
    + `<path d="${pathOf(curve)}" fill="none" stroke="${colour}" stroke-width="${f(width)}"/>`
    + `<polygon points="${tips}" fill="${colour}"/>${bar}</g>`;
}

// This function returns a horizontal line from a spot, as a curve.
/** @type {(x: number, y: number, to: number) => Curve} */
export const lineBetween = (x, y, to) => [0, 1, 2, 3].map((part) => [x + (to - x) * part / 3, y]);

// This function returns the width and the height of a label.
/** @type {(text: string, size?: number) => Size} */
export const labelSize = (text, size = 1) => [(textWidth(text, 11) + 6) * size, 15 * size];

// This function draws the label of a route.
/** @type {(link: SceneLink, x: number, y: number, size?: number) => string} */
export const labelAt = ({ kind, label }, x, y, size = 1) =>
  tagAt(label, x, y, size, `class="${kind}" fill="${COLOURS[kind]}" font-weight="bold"`);

// This function draws a text on its own background.
/** @type {(text: string, x: number, y: number, size: number, more: string) => string} */
export function tagAt(text, x, y, size, more) {
  const [wide, high] = labelSize(text, size);
  return `<rect class="ground" x="${f(x - wide / 2)}" y="${f(y - high / 2)}" width="${f(wide)}"`
    + ` height="${f(high)}" rx="5" fill="#ffffff" fill-opacity="0.88"/>`
    + textAt(x, y + 4 * size, Number(f(11 * size)), text, `text-anchor="middle" ${more}`);
}

// ---- The whole

// This function returns the title and the description of a picture for readers who can't see it.
/** @type {(scene: Scene) => string[]} */
function namesOf({ caption, heading, nodes, links }) {
  const title = `${caption && caption.title ? `${caption.title}: ` : ''}${heading}`;
  const drawn =
    `${countOf(nodes.length, 'place', 'places')} and ${countOf(links.length, 'route', 'routes')}`;
  return [
    `<title>${xmlText(title)}</title>`,
    `<desc>Drawn are ${drawn}; the tables have all of them.</desc>`,
  ];
}

// This function draws a whole picture: the frame, the heading, the body and the legend below.
// `kind` is a class in the page's style.
/**
 * @param {Spot[]} points
 * @param {Scene} scene
 * @param {string[]} body
 * @param {Legend} legend
 */
export function framed(points, scene, body, [lines, across], kind = 'boxes') {
  const [west, north, east, south] = edgesOf(points);
  const size = growthOf([west, north, east, south]);
  const [headings, along] = headingsOf(scene);
  const left = west - 32, right = east + 32;
  const top = north - 38 - (12 + 20 * headings.length) * size;
  const bottom = south + 20 + 36 * size;
  const wide = Math.max(left + 48 + Math.max(across, along) * size, right) - left;
  const high = bottom - top;
  const [x, y, width, height] = [left, top, wide, high].map(f);
  return [
    `<svg xmlns="http://www.w3.org/2000/svg" class="${kind}" role="img" width="${wide.toFixed(0)}"`
      + ` height="${high.toFixed(0)}" viewBox="${x} ${y} ${width} ${height}" ${FONT}`
      + ` fill="${INK}">`,
    ...namesOf(scene),
    `<rect class="ground" x="${x}" y="${y}" width="${width}" height="${height}" fill="#ffffff"/>`,
    placed(left + 24, top + 32 * size, size, headings),
    ...body,
    placed(left + 24, bottom - 20 * size, size, lines),
    '</svg>',
  ].join('\n');
}

// This function returns the factor by which texts grow in a picture wider than a page.
/** @type {(edges: Edges) => number} */
export const growthOf = ([left, , right]) => Math.max(1, (right - left) / PAGE);

// This function draws the headings of a picture (title, heading, tables) and returns them with
// their width.
/** @type {(scene: Scene) => Legend} */
function headingsOf({ heading, caption }) {
  const texts = (caption ? [caption.title, heading, caption.source] : [heading]).filter(Boolean);
  const size = (/** @type {number} */ k) => (k ? 12 : 17);
  const more = (/** @type {number} */ k) =>
    `${LEFT} ${k ? `class="note" fill="${SOFT}"` : 'font-weight="bold"'}`;
  return [
    texts.map((text, k) => textAt(0, 20 * k, size(k), text, more(k))),
    Math.max(...texts.map((text, k) => textWidth(text, size(k)))),
  ];
}

// This function moves a drawing from 0, 0 to another spot and scales it.
/** @type {(x: number, y: number, size: number, lines: string[]) => string} */
const placed = (x, y, size, lines) => [
  `<g transform="translate(${f(x)} ${f(y)})${size === 1 ? '' : ` scale(${size.toFixed(2)})`}">`,
  ...lines,
  '</g>',
].join('\n');

// This function draws the legend, which explains colours and marks, and returns it with its width.
// `swatch(kind, x)` draws a kind of place, or "blocks" for bottlenecks; `route` draws a kind of
// route. An entry in `more` has the width of its drawing, the drawing as a function of its left
// edge, and its words.
/**
 * @param {Scene} scene
 * @param {Swatch} swatch
 * @param {LegendEntry[]} [more]
 * @returns {Legend}
 */
export function legendOf({ notes, groups }, swatch, route = sample, more = []) {
  /** @type {LegendEntry[]} */
  const entries = KINDS.map(([kind, words]) => [22, (x) => swatch(kind, x), words]);
  for (const [kind, words] of Object.entries(notes)) {
    entries.push([44, (x) => route(/** @type {SceneLink['kind']} */ (kind), x), words]);
  }
  if (groups.length) entries.push([24, (x) => swatch('blocks', x), BLOCKS]);
  /** @type {string[]} */
  const lines = [];
  let x = 0;
  for (const [wide, drawn, words] of [...entries, ...more]) {
    lines.push(drawn(x), textAt(x + wide + 6, 0, 12, words, LEFT));
    x += wide + 22 + textWidth(words, 12);
  }
  return [lines, x];
}

// This function draws a route of a kind for the legend.
/** @type {(kind: SceneLink['kind'], x: number) => string} */
const sample = (kind, x) =>
  arrow({ kind, width: kind === 'limits' ? 2.6 : 5, title: '' }, lineBetween(x, -4, x + 42));

// This function draws for the legend a box of a kind, or the shade behind bottlenecks.
/** @type {Swatch} */
export const boxSwatch = (kind, x) =>
  kind === 'blocks'
    ? shadeAt({ x: x + 12, y: -4, width: 24, height: 16 }, 6)
    : boxAt({ x: x + 11, y: -4, width: 22, height: 14 }, kind);

// This function draws the shade behind a box.
/** @type {(box: Box, round: number) => string} */
export const shadeAt = ({ x, y, width, height }, round) =>
  `<rect class="shade" x="${f(x - width / 2)}" y="${f(y - height / 2)}" width="${f(width)}"`
    + ` height="${f(height)}" rx="${round}" fill="${SHADE}"/>`;
