// This file tests pictures: they show all places and routes, on a map and in columns; no boxes
// overlap; many places are dots.
import fs from 'node:fs';
import path from 'node:path';
import { fileURLToPath } from 'node:url';
import { laidOut, levelsOf } from './layout.js';
import { svgOf, svgsOf } from './picture.js';
import { flowOf } from './running.js';
import { blockedScene, planScene, shortNames } from './scene.js';
import { asked, solverHere } from './test_plans.mjs';

const plans = path.join(path.dirname(fileURLToPath(import.meta.url)), '..', 'examples', 'plans');
const count = (text, part) => text.split(part).length - 1;

const CAPTION = {
  title: 'Week <7>',
  source: '2026-11-27: places.csv, routes.csv',
  unit: '',
  currency: '',
};

async function sceneOf(solver, sources) {
  const { plan, blocked } = await flowOf(solver, sources, asked([]));
  return plan ? planScene(plan, CAPTION) : blockedScene(blocked, CAPTION);
}

function drawn(expect, name, scene) {
  const svg = svgOf(scene);
  expect(!/NaN|undefined|null/.test(svg), `${name}: what isn't a number`);
  for (const { name: place } of scene.nodes) expect(
    svg.includes(`<title>${place.replace(/&/g, '&amp;')}`), `${name}: ${place} isn't drawn`
  );
  expect(count(svg, '<') === count(svg, '>'), `${name}: marks that aren't closed`);
}

// This function returns the edges of the rectangles of a class, in order. `overlap` says whether
// two of them overlap by more than rounding.
const rectangles = (svg, kind) =>
  [...svg.matchAll(/<rect class="(\w+)" x="([^"]+)" y="([^"]+)" width="([^"]+)" height="([^"]+)"/g)]
    .filter((found) => found[1] === kind)
    .map((found) => found.slice(2).map(Number))
    .map(([x, y, wide, high]) => [x, y, x + wide, y + high]);
const overlap = (a, b, within = 0.11) =>
  b[0] + within < a[2] && a[0] + within < b[2] && b[1] + within < a[3] && a[1] + within < b[3];

// Labels of routes cover no place and no other label.
function labels(expect) {
  const numbers = Array.from({ length: 16 }, (_, k) => k);
  const nodes = numbers.map((k) => ({
    name: `Werk ${k} München`,
    short: `Werk ${k}`,
    note: 'sends 12000',
    kind: 'sends',
    spot: [k % 4, Math.floor(k / 4) * 0.4],
  }));
  const links = numbers.flatMap((k) =>
    numbers
      .filter((j) => j !== k && (k + j) % 3)
      .map((j) => ({
        tail: k,
        head: j,
        width: 1 + k % 7,
        kind: 'flowing',
        label: (131.75 * (k + j + 1)).toFixed(2),
        title: '',
      }))
  );
  const svg = svgOf({ heading: '', nodes, links, groups: [], notes: {} });
  const boxes = rectangles(svg, 'sends').slice(0, 16), found = rectangles(svg, 'ground').slice(1);
  expect(found.length > 12, `${found.length} labels`);
  found.forEach((label, k) => {
    expect(!boxes.some((box) => overlap(label, box, 3)), `a label covers a place: ${label}`);
    expect(
      !found.slice(0, k).some((other) => overlap(label, other)),
      `a label covers another: ${label}`
    );
  });
}

// Long names are cut so that they differ.
function shorts(expect) {
  const begin = 'Zentrallager für alkoholfreie Getränke', middle = 'Markt der Genossenschaft';
  for (const [names, wanted] of [
    [
      [`${begin} München Ost`, `${begin} München West`, `${begin} Passau`],
      ['Zentrallager…München Ost', 'Zentrallager…ünchen West', 'Zentrallager…änke Passau'],
    ],
    [
      [
        `${middle} Oberbayern im Landkreis 1 Süd`,
        `${middle} Oberbayern im Landkreis 2 Süd`,
        `${middle} Niederbayern im Landkreis 2 Süd`,
      ],
      ['Markt der Ge…kreis 1 Süd', 'Markt der Ge…Oberbayern…', 'Markt der Ge…Niederbaye…'],
    ],
    [
      ['just twenty-four letters', '😀'.repeat(25)],
      ['just twenty-four letters', `${'😀'.repeat(12)}…${'😀'.repeat(11)}`],
    ],
    [['A'.repeat(30), 'A'.repeat(40), 'A'.repeat(29)], null],
  ]) {
    const found = shortNames(names);
    if (wanted) expect(found.join() === wanted.join(), `${found}, and not ${wanted}`);
  }
}

// Many places, each of which only sends or only takes, are drawn as rows: with all names, with each
// route once, without overlaps, and large enough for a page.
async function rowsDrawn(expect, solver) {
  const numbers = Array.from({ length: 150 }, (_, k) => k);
  const places = numbers
    .map((k) => `Werk ${k},${k % 3 + 1}\nMarkt ${k},${-(k % 3) - 1}\n`)
    .join('');
  const routes = numbers
    .flatMap((k) =>
      numbers.map((j) => `Werk ${k},Markt ${j},${1 + j % 2},${Math.abs(k - j) % 7 + 1}\n`)
    )
    .join('');
  const scene = await sceneOf(solver, [
    { name: 'places', text: `name,supply\n${places}` },
    { name: 'routes', text: `from,to,most,cost\n${routes}` },
  ]);
  const svg = svgOf(scene), [, wide] = /viewBox="\S+ \S+ (\S+)/.exec(svg).map(Number);
  for (const k of numbers) {
    expect(
      svg.includes(`>Werk ${k}</text>`) && svg.includes(`>Markt ${k}</text>`),
      `rows: a name lacks: ${k}`
    );
  }
  expect(12 * 925 / wide > 9 && wide > 900, `rows: ${wide} wide`);
  expect(count(svg, '<g class="f') - 2 === scene.links.length, 'rows: a row for each route');
  const long = (node) => ({ ...node, short: node.short.padEnd(17, 'x') });
  const drawing = svgOf({ ...scene, nodes: scene.nodes.map(long) });
  expect(
    12 * 925 / Number(/viewBox="\S+ \S+ (\S+)/.exec(drawing)[1]) > 9,
    'rows: longer names are smaller'
  );
  const boxes = [
    ...rectangles(svg, 'sends').slice(0, -1),
    ...rectangles(svg, 'takes').slice(0, -2),
  ];
  expect(
    !boxes.some((one, k) => boxes.slice(0, k).some((other) => overlap(one, other))),
    'rows: boxes overlap'
  );
}

// Rows are drawn from a certain number of places on a side.
function rowsBegin(expect) {
  for (const [many, kind] of [[20, 'boxes'], [21, 'rows']]) {
    const nodes = Array.from({ length: many + 2 }, (_, k) => ({
      name: `P${k}`,
      short: `P${k}`,
      note: '',
      kind: 'passes',
      spot: null,
    }));
    for (const side of [0, 1]) {
      const links = nodes.slice(2).map((_, k) => ({
        tail: side ? k + 1 : 0,
        head: side ? 0 : k + 1,
        width: 2,
        kind: 'flowing',
        label: '2',
        title: '',
      }));
      const drawing = svgOf({ heading: '', nodes, links, groups: [], notes: {} });
      expect(
        drawing.includes(` class="${kind}"`)
          && nodes.every(({ name }) => drawing.includes(`>${name}</text>`)),
        `${many} places that take: ${kind}`
      );
    }
  }
}

// Pictures of dots have arrows, names, amounts and a legend. Labels don't overlap, and they stand
// within the picture.
function dots(expect) {
  for (const onMap of [true, false]) {
    const nodes = Array.from({ length: 400 }, (_, k) => ({
      name: `Ort ${k}`,
      short: `Ort ${k}`,
      note: '',
      kind: 'passes',
      spot: onMap ? [k % 23, Math.floor(k / 23) * 0.7] : null,
    }));
    const links = nodes.map((_, k) => ({
      tail: k,
      head: (k + 75) % 400,
      width: 1.4 + k % 8,
      kind: ['flowing', 'full', 'idle'][k % 3],
      label: String(k + 1000),
      title: '',
    }));
    links.push({ tail: 7, head: 230, width: 90, kind: 'flowing', label: '999999', title: '' });
    const notes = { flowing: 'as wide as it carries (widest 999999)', full: 'full' };
    const svg = svgOf({ heading: '', nodes, links, groups: [new Set([5])], notes });
    const where = onMap ? 'on a map' : 'in blocks';
    for (const text of [
      'Ort 5',
      'Ort 7',
      'Ort 230',
      '999999',
      'passes on',
      ...Object.values(notes),
      'places that must send or take more than they can',
    ]) {
      expect(svg.includes(`>${text}</text>`), `dots ${where}: no ${text}`);
    }
    const arrow = /<path class="(flowing|full)" d="M[-0-9.]+,[-0-9.]+( L[-0-9.]+,[-0-9.]+){6} Z/g;
    const arrows = [...svg.matchAll(arrow)].length;
    expect(
      arrows === 2 + links.filter(({ kind }) => kind !== 'idle').length,
      `dots ${where}: ${arrows} arrows`
    );
    const [ground, ...tags] = rectangles(svg, 'ground');
    expect(tags.length > (onMap ? 50 : 20), `dots ${where}: ${tags.length} labels`);
    expect(
      !tags.some((tag, k) => tags.slice(0, k).some((other) => overlap(tag, other))),
      `dots ${where}: labels cover each other`
    );
    expect(
      tags.every((tag) => ground[0] <= tag[0] && tag[2] <= ground[2]),
      `dots ${where}: labels beyond the picture`
    );
  }
}

// This function returns a scene of one of some periods, of which no two have the same routes, kinds
// and notes.
function sceneIn(period, many) {
  const half = many / 2, numbers = Array.from({ length: many }, (_, k) => k);
  const nodes = numbers.map((k) => ({
    name: `P${k}`,
    short: `P${k}`,
    note: (k + period) % 3 ? `keeps ${'1234567'.slice(0, 1 + (k + period) % 7)}` : '',
    kind: (k + period) % 4 === 0 ? 'passes' : k < half ? 'sends' : 'takes',
    spot: null,
  }));
  const links = numbers.slice(0, half).filter((k) => (k + period) % 3).map((k) => ({
    tail: k,
    head: half + k * 7 % half,
    width: 1.5 + (k + period) % 5,
    kind: 'flowing',
    label: String(10 ** period),
    title: '',
  }));
  return { heading: `Month ${period}`, nodes, links, groups: [], notes: {} };
}

// Over periods, each place stands at the same spot in all pictures.
function periods(expect) {
  const spot = /<(?:rect class="(?:sends|takes|passes)" x|circle cx)="[^"]*" c?y="[^"]*"/g;
  for (const [many, kind] of [[10, 'boxes'], [60, 'rows'], [400, 'dots']]) {
    const scenes = [0, 1, 2].map((period) => sceneIn(period, many)), all = svgsOf(scenes);
    const spots = (svg) => [...svg.matchAll(spot), /viewBox="[^"]*"/.exec(svg)[0]]
      .map((found) => String(found).replace(/class="\w+"/, '')).join('\n');
    all.forEach((svg, k) => {
      expect(svg.includes(` class="${kind}"`), `a picture of a period: ${kind}`);
      expect(svg.includes(`>Month ${k}</text>`), `the heading of period ${k}`);
      expect(spots(svg) === spots(all[0]), `${kind}: spots in period ${k}`);
      expect(
        [...svg.matchAll(/<(?:g|path) class="flowing"/g)].length === scenes[k].links.length,
        `${kind}: routes of period ${k}`
      );
    });
  }
}

// The title, the date and the tables stand above the picture. Numbers have spaces between
// thousands.
async function titles(expect, solver) {
  const places = { name: 'places', text: 'name;supply\nA;12500\nB;-12500\n' };
  for (const [most, heading] of [
    ['', 'A least-cost plan: cost 15\u202f625'],
    ['1', 'No plan exists: short by 12\u202f499'],
  ]) {
    const svg = svgOf(
      await sceneOf(solver, [
        places,
        { name: 'routes', text: `from;to;most;cost\nA;B;${most};1,25\n` },
      ])
    );
    const texts = [...svg.matchAll(/<text [^>]*>([^<]*)</g)].map(([, text]) => text);
    expect(
      texts.slice(0, 3).join('|') === `Week &lt;7&gt;|${heading}|${CAPTION.source}`,
      texts.slice(0, 3).join('|')
    );
    const names =
      `>\n<title>Week &lt;7&gt;: ${heading}</title>\n<desc>Drawn are 2 places and 1 route; the`;
    expect(svg.includes(' role="img" ') && svg.includes(names), 'a name');
    expect(texts.includes('sends 12\u202f500'), 'a picture without thousands apart');
  }
}

// Columns begin at the nodes that send, then at nodes without incoming links.
function columns(expect) {
  for (const [links, starts, wanted] of [
    [[[2, 0], [2, 1]], [], '1,1,0'],
    [[[2, 0], [0, 1]], [0], '0,1,0'],
    [[[0, 1], [1, 0]], [], '0,1,0'],
  ]) {
    const found = levelsOf(3, links.map(([tail, head]) => ({ tail, head })), starts).join();
    expect(found === wanted, `columns ${found}, and not ${wanted}`);
  }
}

// Boxes don't overlap, on a map and in columns.
function apart(expect) {
  for (const spots of [null, Array.from({ length: 60 }, (_, k) => [k % 7, k % 11])]) {
    const links = Array.from({ length: 59 }, (_, k) => ({ tail: k, head: k + 1 - (k % 3) }));
    const { boxes } = laidOut({
      sizes: Array.from({ length: 60 }, (_, k) => [60 + 2 * k, 38]),
      spots,
      links,
      starts: [0],
    });
    const over = (a, b) =>
      Math.abs(a.x - b.x) < (a.width + b.width) / 2
      && Math.abs(a.y - b.y) < (a.height + b.height) / 2;
    expect(
      !boxes.some((a, i) => boxes.some((b, j) => j < i && over(a, b))),
      `boxes overlap ${spots ? 'on a map' : 'in columns'}`
    );
  }
}

// Spots may be as far apart or as close as numbers allow.
function far(expect) {
  for (const spots of [
    [[-1e308, 0], [1e308, 1e308], [0, -1e308]],
    [[0, 0], [5e-324, 1e-300], [0, 1]],
    [[0, 5e-324], [0, 0], [0, 0]],
  ]) {
    const { boxes } = laidOut({
      sizes: spots.map(() => [60, 38]),
      spots,
      links: [{ tail: 0, head: 1 }],
      starts: [0],
    });
    expect(
      boxes.every(({ x, y }) => Number.isFinite(x) && Number.isFinite(y)),
      `spots as far or as near as numbers can be: ${JSON.stringify(spots)}`
    );
  }
}

export default async function test(expect) {
  for (const pure of [columns, shorts, dots, labels, rowsBegin, apart, far, periods]) pure(expect);
  const solver = solverHere();
  await rowsDrawn(expect, solver);
  await titles(expect, solver);
  for (const name of [
    'transport', 'blocked', 'network', 'network-blocked', 'models', 'two-causes', 'unbalanced',
    'degenerate',
  ]) {
    const sources = ['places.csv', 'routes.csv'].map((file) => ({
      name: file,
      bytes: fs.readFileSync(path.join(plans, name, file)),
    }));
    const scene = await sceneOf(solver, sources);
    drawn(expect, name, scene);
    expect(
      scene.groups.length > 0 === (name === 'two-causes' || name.includes('blocked')),
      `${name}: groups that block`
    );
  }
  const rows = Array.from({ length: 400 }, (_, k) => k);
  const [places, routes] = [
    rows.map((k) => `P${k},${k < 200 ? 1 : -1}\n`),
    rows.slice(0, 200).map((k) => `P${k},P${k + 200},1,1\n`),
  ];
  const scene = await sceneOf(solver, [
    { name: 'places', text: `name,supply\n${places.join('')}` },
    { name: 'routes', text: `from,to,most,cost\n${routes.join('')}` },
  ]);
  drawn(expect, 'dots', scene);
  expect(count(svgOf(scene), '<circle') === 403, 'many places are dots, and three of the legend');
}
