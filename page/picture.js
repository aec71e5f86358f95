// @ts-check
// This file draws scenes as SVG: boxes and arrows; dots if there are many places; rows if there are
// many places and each only sends or only takes.
import { dotsSvgs } from './dots.js';
import {
  SHADE,
  SOFT,
  arrow,
  boxAt,
  boxSwatch,
  framed,
  isQuiet,
  labelAt,
  labelSize,
  legendOf,
  orderOf,
  pathOf,
  shadeAt,
  textAt,
  textWidth,
  xmlText,
} from './drawing.js';
import { laidOut, samples } from './layout.js';
import { Room } from './room.js';
import { rowsAreBetter, rowsSvg } from './rows.js';
import { slotsOf, together } from './together.js';

// If there are more places or routes than this, the picture has dots.
const BOXES = 300, CURVES = 1500;
// A label may reach this far into a box, beside its text.
const INNER = 3;

/** @type {(scene: Scene) => string} */
export const svgOf = (scene) => svgsOf([scene])[0];

// This function draws scenes of the same places, each of which is at the same spot in all pictures.
/** @type {(scenes: Scene[]) => string[]} */
export function svgsOf(scenes) {
  const whole = together(scenes);
  if (whole.nodes.length > BOXES || whole.links.length > CURVES) return dotsSvgs(scenes, whole);
  if (rowsAreBetter(whole)) return scenes.map((scene) => rowsSvg(scene, whole));
  const layout = laidOut(taskOf(whole));
  return scenes.map((scene) => boxesSvg(scene, layout, slotsOf(scene, whole)));
}

/** @type {(node: SceneNode) => Size} */
function boxSize({ short, note }) {
  return [Math.max(44, Math.max(textWidth(short, 13), textWidth(note, 11)) + 16), note ? 38 : 24];
}

/** @type {(scene: Scene) => LayoutTask} */
function taskOf({ nodes, links }) {
  const spots = nodes.map((node) => node.spot);
  const starts = nodes.map((_, k) => k).filter((k) => nodes[k].kind === 'sends');
  return {
    sizes: nodes.map(boxSize),
    spots: spots.length && spots.every(Boolean) ? spots : null,
    links,
    starts,
  };
}

// This function draws a scene with boxes and curves, by a layout of perhaps more routes. There
// those of the scene have the numbers in `slots`.
/** @type {(scene: Scene, layout: Layout, slots: number[]) => string} */
function boxesSvg(scene, layout, slots) {
  const { links, nodes, groups } = scene, { boxes } = layout;
  const curves = slots.map((slot) => layout.curves[slot]);
  const labels = slots.map((slot) => layout.labels[slot]);
  const body = [
    ...shades(scene, boxes, curves),
    ...orderOf(links).map((k) => arrow(links[k], curves[k])),
    ...nodes.map((node, k) => placeBox(node, boxes[k], groups.some((group) => group.has(k)))),
    ...freeLabels(links, boxes, labels),
  ];
  /** @type {Spot[]} */
  const corners = [
    ...boxes.flatMap(({ x, y, width, height }) => /** @type {Spot[]} */ ([
      [x - width / 2, y - height / 2],
      [x + width / 2, y + height / 2],
    ])),
    ...layout.curves.flatMap((curve) => samples(curve, 6)),
  ];
  return framed(corners, scene, body, legendOf(scene, boxSwatch));
}

// This function places the labels of the routes, widest first, where they cover no place and no
// other label. A label without a free spot is left out, since the arrow's title has its text, too.
/** @type {(links: SceneLink[], boxes: Box[], labels: Spot[][]) => string[]} */
function freeLabels(links, boxes, labels) {
  const room = new Room(), order = links.map((_, k) => k).filter((k) => links[k].label);
  for (const { x, y, width, height } of boxes) {
    const [wide, high] = [width / 2 - INNER, height / 2 - INNER];
    room.take([x - wide, y - high, x + wide, y + high]);
  }
  const quiet = (/** @type {number} */ k) => Number(isQuiet(links[k]));
  order.sort((a, b) => quiet(a) - quiet(b) || links[b].width - links[a].width);
  return order.flatMap((k) => {
    const spot = room.first(labels[k], labelSize(links[k].label));
    return spot ? labelAt(links[k], ...spot) : [];
  });
}

// This function draws the box of a place, with its name and its note.
/** @type {(node: SceneNode, box: Box, blocks: boolean) => string} */
function placeBox(node, box, blocks) {
  const note = node.note
    ? textAt(box.x, box.y + 12.5, 11, node.note, `text-anchor="middle" class="note" fill="${SOFT}"`)
    : '';
  const name = textAt(box.x, box.y + (node.note ? -3 : 4.5), 13, node.short);
  const drawn = boxAt(box, node.kind, blocks);
  return `<g><title>${xmlText(node.name)}</title>${drawn}${name}${note}</g>`;
}

// This function draws the shade behind the places in bottlenecks and the routes between them.
/** @type {(scene: Scene, boxes: Box[], curves: Curve[]) => string[]} */
function shades({ groups, links }, boxes, curves) {
  return groups.flatMap((group) => [
    ...[...group].map((k) =>
      shadeAt({ ...boxes[k], width: boxes[k].width + 30, height: boxes[k].height + 30 }, 18)
    ),
    ...curves
      .filter((_, k) => group.has(links[k].tail) && group.has(links[k].head))
      .map((curve) =>
        `<path class="shade" d="${pathOf(curve)}" fill="none" stroke="${SHADE}"`
          + ' stroke-width="30" stroke-linecap="round"/>'
      ),
  ]);
}
