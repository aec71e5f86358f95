// @ts-check
// What several pictures of the same places have in common, so that each place stands at the same
// spot in all of them.
import { textWidth } from './drawing.js';

// This function returns a scene with all routes of some scenes of the same places. Each place is as
// large as in any of them, and each route as wide.
/** @type {(scenes: Scene[]) => Scene} */
export function together(scenes) {
  if (scenes.length === 1) return scenes[0];
  /** @type {Map<string, SceneLink>} */
  const links = new Map();
  for (const scene of scenes) {
    keysOf(scene.links).forEach((key, k) => {
      const link = scene.links[k], other = links.get(key) || link;
      const isWider = textWidth(link.label, 11) > textWidth(other.label, 11);
      const { label } = isWider ? link : other;
      links.set(key, { ...(link.width > other.width ? link : other), label });
    });
  }
  const nodes = scenes[0].nodes.map((_, k) => largest(scenes.map((scene) => scene.nodes[k])));
  return { ...scenes[0], nodes, links: [...links.values()] };
}

// This function returns a place as it is in some scenes: with its widest note. It sends or takes,
// whichever it does more often, and otherwise passes on.
/** @type {(nodes: SceneNode[]) => SceneNode} */
function largest(nodes) {
  const wide = (/** @type {SceneNode} */ { note }) => textWidth(note, 11);
  const node = nodes.reduce((one, other) => (wide(other) > wide(one) ? other : one));
  const count = (/** @type {string} */ kind) => nodes.filter((one) => one.kind === kind).length;
  const more = count('sends') - count('takes');
  const { spot } = nodes.find((one) => one.spot) || node;
  return { ...node, kind: more > 0 ? 'sends' : more < 0 ? 'takes' : 'passes', spot };
}

// This function returns what tells routes apart: their ends, and their order among those with the
// same ends.
/** @type {(links: SceneLink[]) => string[]} */
function keysOf(links) {
  /** @type {Map<string, number>} */
  const seen = new Map();
  return links.map(({ tail, head }) => {
    const ends = `${tail} ${head}`, nth = seen.get(ends) || 0;
    seen.set(ends, nth + 1);
    return `${ends} ${nth}`;
  });
}

// This function returns the numbers of the routes of a scene among those of the scene that has all.
/** @type {(scene: Scene, whole: Scene) => number[]} */
export function slotsOf(scene, whole) {
  const numbers = new Map(keysOf(whole.links).map((key, k) => [key, k]));
  return keysOf(scene.links).map((key) => numbers.get(key));
}
