// This file runs the plans of examples/plans through the page, and compares what it says and its
// tables with what mcf_plan says and writes.
import { spawnSync } from 'node:child_process';
import fs from 'node:fs';
import os from 'node:os';
import path from 'node:path';
import { fileURLToPath } from 'node:url';
import { BadTable } from './faults.js';
import { accepts, judged } from './module.js';
import { groupsTables } from './groups.js';
import { pairsSummary, pairsTable, rivalsLines, rivalsTable } from './pairs.js';
import { planned } from './planned.js';
import {
  blockedSummary,
  bottleneckTable,
  csvOf,
  flowSummary,
  flowsTable,
  pricesTable,
  slips,
  stockTables,
} from './report.js';
import { flowOf, pairsOf } from './running.js';
import { blockedScene, planScenes } from './scene.js';
import { planShown } from './sheets.js';
import { flowSumsTable, pairSumsTable } from './sums.js';
import { loaded } from './test_module.mjs';
import { speakAs } from './words.js';

const plans = path.join(path.dirname(fileURLToPath(import.meta.url)), '..', 'examples', 'plans');

// The words of mcf_plan.
export const TOOL = {
  found: 'proved',
  none: 'proved',
  encoding: 'or say --encoding windows-1252',
  choose: 'say --decimal , or --decimal . (what stands before decimals)',
  orChoose: 'or say --decimal',
  chosen: 'as --decimal says',
  own: (head) => `where a head has another name, say so: --map ${head}=NAME`,
  named: (head, own) => `--map ${head}=${own}`,
  names: (head, own) => `which --map ${head}=${own} names`,
  merged: (title) => `say --fill-down ${title}`,
  fills: (column) => `--fill-down ${column}`,
  unused: '--unused allow lets it stay',
  short: '--short allow lets it be short',
  penalty: (number) => `--penalty ${number}`,
  ofAll: 'or say --penalty N for all that have none',
  each: 'With --each what each thing would get a person',
  both: 'with --each both',
  groups: 'a table of groups says (--groups)',
  leaves: '--crossing check leaves',
  limits: 'LIMITS in `man mcf`',
};

// This function returns a solver that runs the module in this process.
export function solverOf(module) {
  const bytes = (text) => (typeof text === 'string' ? new TextEncoder().encode(text) : text);
  const withText = (result) => (
    { ...result, answer: result.answer && new TextDecoder().decode(result.answer) }
  );
  return {
    plan: async (texts, options) => withText(planned(module, texts, options)),
    solve: async (text, engine) => withText(judged(module, bytes(text), engine)),
    check: async (text, answer) => accepts(module, bytes(text), bytes(answer)),
  };
}

// This function returns a solver that runs a program like mcfplan for each call. It solves tables
// alone.
function solverBy(program) {
  const scratch = fs.mkdtempSync(path.join(os.tmpdir(), 'mcf-page-'));
  process.on('exit', () => fs.rmSync(scratch, { recursive: true }));
  const wordsOf = (
    { decimal, unused, short, ranges, penalty, each, maximise, crossing, fillDown = [] }
  ) => [
    decimal && `--decimal=${decimal}`, unused && '--unused=allow', short && '--short=allow',
    ranges && '--ranges=yes', penalty && `--penalty=${penalty}`, each && `--each=${each}`,
    maximise && '--maximise=yes', crossing && `--crossing=${crossing}`,
    fillDown.length && `--fill-down=${fillDown.join('\n')}`,
  ].filter(Boolean);
  return {
    plan: async (texts, options) => {
      const files = texts.map((text, k) => {
        fs.writeFileSync(path.join(scratch, String(k)), text);
        return path.join(scratch, String(k));
      });
      const command = 'each' in options ? 'pairs' : 'flow';
      if (command === 'pairs' && files.length > 1) files.splice(1, 0, '--groups');
      const { status, stdout } = spawnSync(
        program,
        [command, ...wordsOf(options), ...files],
        { maxBuffer: 1e9 }
      );
      return {
        status: ['flow', 'blocked', 'refused'][status] ?? 'failed',
        answer: new TextDecoder().decode(stdout),
      };
    },
  };
}

// This function returns what solves in tests: the module, or the program that MCFPLAN names.
export const solverHere = () =>
  process.env.MCFPLAN ? solverBy(process.env.MCFPLAN) : solverOf(loaded());

// This function translates mcf_plan's command line for the page: the files, how to read them,
// choices, and the units of the caption.
export function asked(words) {
  const found = {
    files: [],
    reading: { heads: {}, fillDown: [] },
    policy: {},
    each: null,
    maximise: false,
    crossing: null,
    by: [],
    caption: { title: '', source: '', unit: '', currency: '' },
  };
  const groups = [];
  for (let k = 0; k < words.length; k++) {
    const word = words[k];
    if (word === '--maximise') found.maximise = true;
    else if (word === '--ranges') found.policy.ranges = true;
    else if (word === '--by') found.by.push(words[++k]);
    else if (word === '--fill-down') found.reading.fillDown.push(words[++k]);
    else if (word === '--map') {
      const [head, own] = words[++k].split('=');
      found.reading.heads[head] = own;
    } else if (word === '--unused' || word === '--short') {
      found.policy[word.slice(2)] = words[++k] === 'allow';
    } else if (word === '--penalty') found.policy.penalty = words[++k];
    else if (word === '--unit' || word === '--currency') found.caption[word.slice(2)] = words[++k];
    else if (word === '--each') found.each = words[++k];
    else if (word === '--crossing') found.crossing = words[++k];
    else if (word === '--groups') groups.push(words[++k]);
    else if (word.startsWith('--')) found.reading[word.slice(2)] = words[++k];
    else found.files.push(word);
  }
  found.files.push(...groups);
  return found;
}

// This function returns the places of the columns of a table with these titles.
const placesOf = (table, titles) =>
  titles.map((title) => table.titles.indexOf(title)).filter((place) => place >= 0);

// This function returns the columns of a flow with these titles, in the order of the titles.
const columnsOf = ({ placeTable, routeTable }, titles) => titles.flatMap((title) => [
  ...placesOf(placeTable, [title]).map((place) => ['places', place]),
  ...placesOf(routeTable, [title]).map((place) => ['routes', place]),
]);

// This function returns what the page says about a flow, and its tables.
async function flow(solver, sources, choices) {
  const { problem, plan, blocked } = await flowOf(solver, sources, choices);
  return {
    said: [
      ...slips(problem, choices.policy).map((line) => `mcf_plan: warning: ${line}`),
      ...(plan ? flowSummary(plan) : blockedSummary(blocked)),
      ...problem.told(choices.policy, columnsOf(problem, choices.by)),
    ],
    status: plan ? 0 : 1,
    mark: problem.mark,
    tables: plan
      ? [
        flowsTable(plan), pricesTable(plan), ...stockTables(plan),
        flowSumsTable(plan, columnsOf(problem, choices.by)),
      ]
      : [bottleneckTable(blocked)],
  };
}

// This function returns the same for pairs.
async function pairs(solver, sources, choices) {
  const { roster, result } = await pairsOf(solver, sources, choices);
  const rivals = result.status === 'flow' ? null : roster.rivals();
  return {
    said: [
      ...(rivals ? rivalsLines(roster, rivals) : pairsSummary(roster)),
      ...roster.told(placesOf(roster.table, choices.by)),
    ],
    status: rivals ? 1 : 0,
    mark: roster.mark,
    tables: rivals
      ? [rivalsTable(roster, rivals)]
      : [
        pairsTable(roster), ...groupsTables(roster),
        pairSumsTable(roster, placesOf(roster.table, choices.by)),
      ],
  };
}

// This function returns what the page says about tables, in mcf_plan's words.
export async function told(kind, solver, sources, choices) {
  speakAs(TOOL);
  try {
    const found = kind === 'flow'
      ? await flow(solver, sources, choices)
      : await pairs(solver, sources, choices);
    return { ...found, said: `${found.said.join('\n')}\n` };
  } catch (error) {
    if (!(error instanceof BadTable)) throw error;
    return {
      said: error.lines.map((line) => `mcf_plan: ${line}\n`).join(''),
      status: 2,
      tables: [],
    };
  } finally { speakAs(null); }
}

// The tables that the page writes can be read again, even with heads that JavaScript knows and with
// a separator that heads don't show by themselves.
async function written(expect, solver) {
  const sources = [
    { name: 'places', text: 'sep=|\nname|supply|__proto__\nA|2|a\nB|-1|b\n' },
    { name: 'routes', text: 'sep=|\nfrom|to|most|cost|constructor\nA|B||1|c\n' },
  ];
  const choices = asked(['--unused', 'allow']);
  const { tables, mark } = await told('flow', solver, sources, choices);
  const [flows, prices] = tables.map((table) => csvOf(table, mark));
  expect(flows.endsWith('\nA|(stays)||||1|0||||\n'), `a column constructor: ${flows}`);
  const again = await told('flow', solver, [{ name: 'prices', text: prices }, sources[1]], choices);
  expect(
    again.status === 0 && csvOf(again.tables[1], mark) === prices,
    `a table with another separator: ${prices}`
  );
}

// Columns of earlier results stay if one of them is read, by another head. Heads of two lines don't
// hide what separates them.
async function mapped(expect, solver) {
  const short = await told(
    'pairs',
    solver,
    [{ name: 'costs', text: 'who,what,cost,note\nA,T,1\n' }],
    asked([])
  );
  expect(csvOf(short.tables[0]) === 'who,what,cost,note\nA,T,1,\n', 'a row without its last cell');
  const sources = [
    { name: 'places', text: 'name,supply\nA,2\nB,-2\n' },
    {
      name: 'routes',
      text: 'from;to;most;cost;carries;total;free;one_more_saves;exact;one_more_carried_costs;'
        + '"a\r\nnote"\r\nA;B;5;0;0;7;5;0;no;8;x\r\n',
    },
  ];
  const { plan } = await flowOf(
    solver,
    [
      { name: 'places', text: 'name,supply\nHomestay,1\nB,-1\n' },
      { name: 'routes', text: 'from,to,most,cost\nHomestay,B,1,1\nHomestay,B,1,2\n' },
    ],
    asked([])
  );
  const lead = planShown(plan).lead();
  expect(lead.length === 1, `a place like a word: ${lead}`);
  const { tables, mark } = await told('flow', solver, sources, asked(['--map', 'cost=total']));
  const flows = csvOf(tables[0], mark);
  expect(
    flows === 'from;to;most;cost;carries;total;free;one_more_saves;exact;one_more_carried_costs;'
      + '"a\nnote";carries;total;free;one_more_saves;exact;one_more_carried_costs\n'
      + 'A;B;5;0;0;7;5;0;no;8;x;2;14;3;0;yes;0\n',
    `own heads among earlier results: ${flows}`
  );
}

// A hint at a choice isn't told to whoever has made it.
async function hinted(expect, solver) {
  const sources = [
    { name: 'costs', text: 'who,what,cost\nA,X,1\nB,X,1\n' },
    { name: 'groups', text: 'group,who,least\ntwo,A,\ntwo,B,2\n' },
  ];
  for (const [words, wanted] of [[[], true], [['--each', 'what'], false]]) {
    const { said } = await told('pairs', solver, sources, asked(words));
    expect(said.includes('would get a person, if that can be') === wanted, `a hint: ${said}`);
  }
}

// Sums of pairs: by things, by persons with several, by costs with the mark of the table, and by a
// column of one's own, of which values without a pair count, too.
async function summed(expect, solver) {
  const text = 'who;Ding;cost;takes;day\nA;X;1,5;2..2;Mo\nA;Y;10;;Di\nB;Z;9;1..3;Mi\nB;W;2;;Mo\n'
    + 'B;Y;3,25;;Do\nC;W;1;0..0;Fr\n';
  const choices = asked(['--map', 'what=Ding', '--by', 'day', '--each', 'what']);
  const { tables, mark } = await told('pairs', solver, [{ name: 'costs', text }], choices);
  expect(
    csvOf(tables[1], mark) === 'by;value;pairs;total\nDing;X;1;1,5\nDing;Y;1;10\nDing;Z;1;9\n'
      + 'Ding;W;1;2\nwho;A;2;11,5\nwho;B;2;11\nwho;C;0;0\n'
      + 'cost;1,5;1;1,5\ncost;2;1;2\ncost;9;1;9\ncost;10;1;10\n'
      + 'day;Mo;2;3,5\nday;Di;1;10\nday;Mi;1;9\nday;Do;0;0\nday;Fr;0;0\n',
    `sums of pairs: ${csvOf(tables[1], mark)}`
  );
}

// All demands may be met from first stock, and all supplies may be left as last stock; no sign is
// wrong then.
async function stocked(expect, solver) {
  const routes = { name: 'routes', text: 'from,to,most,cost\nShop,Shop,,1\n' };
  for (const rows of ['Shop,May,-3,3,\nShop,June,-2,,\n', 'Shop,May,5,,\nShop,June,3,,3\n']) {
    const places = {
      name: 'places',
      text: `name,period,supply,first stock,last stock\n${rows}`,
    };
    const choices = asked(['--short', 'allow', '--unused', 'allow']);
    const { said, status } = await told('flow', solver, [places, routes], choices);
    expect(status === 0 && !said.includes('warning'), `stock: ${said}`);
  }
}

// Tables with first and last stock, by the demand of the last period, which may be too great.
const withStock = (demand) => [
  {
    name: 'places',
    text: 'name,period,supply,keep most,keep cost,first stock,last stock\nBrewery,,100,,,,\n'
      + `Depot,,0,100,0.5,20,10\nKiel,May,-60,10,1,,\nKiel,June,-90,10,1,,\nKiel,July,${demand},,,,\n`,
  },
  {
    name: 'routes',
    text: 'from,to,most,cost,lead,both\nBrewery,Depot,120,2,1,\nDepot,Kiel,90,1,0,yes\n'
      + 'Brewery,Kiel,40,5,,\n',
  },
];

// Stock has periods of its own, of which sheets tell where there is stock. Pictures are of named
// periods.
async function stockShown(expect, solver) {
  const choices = asked(['--unused', 'allow']);
  const { plan } = await flowOf(solver, withStock(-100), choices), { sheets } = planShown(plan);
  const rowsOf = (name) => {
    const { count, row } = sheets.find(({ title }) => title === name);
    return Array.from({ length: count }, (_, k) => row(k).cells);
  };
  const periods = rowsOf('Places').map(([period, name]) => `${name} ${period}`);
  const stock = 'Depot 20 0 0 10; Kiel  0 0 ';
  for (const [found, wanted] of [
    [periods.length, 11],
    [periods[0], 'Depot first stock'],
    [periods[10], 'Depot last stock'],
    [rowsOf('Stock').map((cells) => cells.join(' ')).join('; '), stock],
    [
      planScenes(plan, choices.caption)
        .map(({ nodes }) => nodes.map(({ note }) => note).join(' | ')).join('; '),
      'sends 100 | first stock 20 | takes 60; sends 100 |  | takes 90; '
        + 'sends 100, 60 stays | keeps 10 | takes 100',
    ],
  ]) expect(found === wanted, `stock: ${found}, and not ${wanted}`);
}

// If there is no plan, places without stock aren't told of or drawn in the periods of stock.
async function stockBlocked(expect, solver) {
  const choices = asked(['--unused', 'allow']);
  const { blocked } = await flowOf(solver, withStock(-160), choices);
  const { nodes, links, groups } = blockedScene(blocked, choices.caption);
  const names = nodes.map(({ name }) => name).filter((name) => name.includes('stock'));
  const stock = 'Depot (first stock),Depot (last stock)';
  expect(names.join() === stock && nodes.length === 11, `drawn: ${names}, ${nodes.length}`);
  const titles = links.map(({ title }) => title).filter((title) => title.includes('stock)'));
  expect(
    titles.join('; ') === 'Depot (first stock) -> Depot (May): 0 or more; '
      + 'Depot (July) -> Depot (last stock): 0 or more',
    `routes of stock: ${titles.join('; ')}`
  );
  expect(
    links.every(({ tail, head }) => nodes[tail] && nodes[head])
      && groups.every((group) => [...group].every((node) => nodes[node])),
    'routes and groups of what is drawn'
  );
  const told = bottleneckTable(blocked).rows.map(([, , , name]) => name)
    .filter((name) => name.includes('stock'));
  expect(told.join() === stock, `told: ${told}`);
}

// Bounds are those of named periods. If the place sends in the last one, the penalty is that of the
// last stock alone.
async function stockPenalties(expect, solver) {
  const text = 'name,period,supply,first stock,last stock,most,penalty\nDepot,Jan,,2,,9,\n'
    + 'Depot,Feb,3,,5,9,7\nShop,Jan,-2,,,,4\n';
  const routes = { name: 'routes', text: 'from,to,most,cost\nDepot,Shop,,1\n' };
  const choices = asked(['--short', 'allow']);
  const { plan } = await flowOf(solver, [{ name: 'places', text }, routes], choices);
  const { columns, count, row } = planShown(plan).sheets.find(({ title }) => title === 'Places');
  const heads = columns.map(({ head }) => head);
  const found = Array.from({ length: count }, (_, k) => row(k).cells).map((cells) =>
    ['name', 'period', 'penalty', 'passes'].map((head) => cells[heads.indexOf(head)]).join(' ')
  ).join('; ');
  const wanted = 'Depot first stock  ; Depot Jan  2; Shop Jan 4 ; Depot Feb  3; Shop Feb  ; '
    + 'Depot last stock 7 ';
  expect(found === wanted, `penalties and bounds of stock: ${found}`);
}

// Named periods may be called as those of stock are.
async function stockNamed(expect, solver) {
  const [places, routes] = withStock(-100);
  const text = places.text.replace('May,-60', 'last stock,-30').replace('July', 'first stock');
  const { plan } = await flowOf(solver, [{ name: 'places', text }, routes], asked(['--unused', 'allow']));
  const scenes = planScenes(plan, asked([]).caption);
  expect(scenes.length === 3 && scenes.every(({ nodes }) => nodes.length === 3), 'named as stock');
}

// The mark before decimals of a table doesn't change points in the names of its periods.
async function pointed(expect, solver) {
  const sources = [
    { name: 'places', text: 'name;period;supply\nA;1.6.;1,5\nB;2.6.;-1,5\n' },
    { name: 'routes', text: 'from;to;most;cost;lead\nA;B;;1;1\n' },
  ];
  const { tables, mark } = await told('flow', solver, sources, asked([]));
  const [flows, prices] = tables.map((table) => csvOf(table, mark));
  expect(flows.endsWith('\nA;B;;1;1;1,5;1,5;;0;yes;0;1.6.;2.6.\n'), `periods of routes: ${flows}`);
  const last = prices.split('\n').map((line) => line.split(';').pop());
  expect(last.join() === 'in_period,1.6.,1.6.,2.6.,2.6.,', `periods of places: ${prices}`);
}

// This function returns what rows tell under heads, of those in which one of these cells is filled,
// by their cells under keys; all of it as one text.
const filled = (titles, rows, keys, heads) => {
  const cellsOf = (row, names) => names.map((name) => row[titles.indexOf(name)]);
  return rows.filter((row) => cellsOf(row, heads).some(Boolean))
    .map((row) => `${cellsOf(row, keys).join(' ')}: ${cellsOf(row, heads).join(' ')}`)
    .join('; ');
};

// Tables over periods, and for how many units room on departures, in places and in stores saves
// what one more does, and what further units of supplies and demands cost, for how many. One row is
// all departures of a route both ways, or stands for a place in all periods; routes of a matrix
// share a row, and two of them may join the same places.
const UNITS_OVER_PERIODS = [
  {
    texts: [
      'name,period,supply,most,keep most,keep cost\nMill,,9.5,5.5,3,1\nShop,May,-4,,0.5,0.5\n'
        + 'Shop,June,-8,,2,0.5\nShop,July,-7,,,\nPort,May,3,,1,0\nPort,June,-2,,,\n'
        + 'Port,July,5,,,\n',
      'from,to,most,cost,lead,both\nMill,Shop,5,2,,\nMill,Port,,3,1,\nShop,Port,4,1,,yes\n'
        + 'Mill,Shop,9,6,,\n',
    ],
    routes: 'Mill Shop 2 June: 0.5; Port Shop 1 July: 1',
    places: 'Mill May: 0.5',
    stock: 'Shop May: 2; Port May: 2',
    supplies: 'Shop May: 4 0; Port May: -3 0.5; Shop June: 6 0; Port June: 5 0; Shop July: 2 2',
  },
  {
    texts: [
      'name;period;supply;most;cost;keep most;keep cost\nMill;;12;;;;\nDepot;;0;6;0,5;1;1\n'
        + 'Shop;May;-3;;;;\nShop;June;-9;;;;\nPort;;-2;;;;\n',
      ';Mill;Depot;Shop;Port;Port\nMill;;1;9;8;8\nDepot;;;2;3;3,5\n',
    ],
    routes: '',
    places: 'Depot June: 3',
    stock: '',
    supplies: 'Shop May: 3.5 1; Port May: 4.5 1; Shop June: 9 1; Port June: 8 1',
  },
];

// These stand at the departure, the store or the place, and the period, of which the answer tells
// them, in the tables to save and in those that are shown.
async function unitsOverPeriods(expect, solver) {
  const saves = ['one_more_saves_for'], choices = asked(['--unused', 'allow', '--ranges']);
  for (const { texts, routes, places, stock, supplies } of UNITS_OVER_PERIODS) {
    const sources = texts.map((text, k) => ({ name: ['places', 'routes'][k], text }));
    const { plan } = await flowOf(solver, sources, choices);
    const saved = [flowsTable(plan), pricesTable(plan), ...stockTables(plan)];
    const { sheets } = planShown(plan);
    const inTable = (k, ...more) => filled(saved[k].heads, saved[k].rows, ...more);
    const inSheet = (title, ...more) => {
      const { columns, count, row } = sheets.find((sheet) => sheet.title === title);
      const rows = Array.from({ length: count }, (_, k) => row(k).cells);
      return filled(columns.map(({ head }) => head), rows, ...more);
    };
    for (const [found, wanted] of [
      [inTable(0, ['from', 'to', 'cost', 'departs_in'], saves), routes],
      [inTable(1, ['name', 'in_period'], saves), places],
      [inTable(2, ['name', 'period'], saves), stock],
      [inTable(1, ['name', 'in_period'], ['more_costs', 'more_costs_for']), supplies],
      [inSheet('Routes', ['from', 'to', 'cost', 'departs in'], ['saves for']), routes],
      [inSheet('Places', ['name', 'period'], ['saves for']), places],
      [inSheet('Places', ['name', 'period'], ['more costs', 'for units']), supplies],
    ]) expect(found === wanted, `units over periods: ${found}, and not ${wanted}`);
  }
}

export default async function test(expect) {
  const solver = solverHere();
  await written(expect, solver);
  await mapped(expect, solver);
  await hinted(expect, solver);
  await summed(expect, solver);
  await stocked(expect, solver);
  await stockShown(expect, solver);
  await stockBlocked(expect, solver);
  await stockPenalties(expect, solver);
  await stockNamed(expect, solver);
  await pointed(expect, solver);
  await unitsOverPeriods(expect, solver);
  for (const name of fs.readdirSync(plans)
    .filter((one) => fs.existsSync(path.join(plans, one, 'expected')))) {
    const folder = path.join(plans, name);
    const stored = (file) => fs.readFileSync(path.join(folder, 'expected', file), 'utf8');
    const has = (file) => fs.existsSync(path.join(folder, file));
    const [kind, ...words] = has('call.txt')
      ? fs.readFileSync(path.join(folder, 'call.txt'), 'utf8').trim().split(/\s+/)
      : has('places.csv') ? ['flow', 'places.csv', 'routes.csv'] : ['pairs', 'costs.csv'];
    const choices = asked(words);
    const sources = choices.files.map((file) => ({
      name: file,
      bytes: fs.readFileSync(path.join(folder, file)),
    }));
    const found = await told(kind, solver, sources, choices);
    const said = `${found.said}status ${found.status}\n`;
    expect(said === stored('said.txt'), `${name}: it says\n${said}and not\n${stored('said.txt')}`);
    expect(
      found.tables.length === fs.readdirSync(path.join(folder, 'expected')).length - 1,
      `${name}: it has other tables`
    );
    for (const table of found.tables) {
      const text = csvOf(table, found.mark).replace(/^\ufeff/, '');
      const wanted = stored(`${table.name}.csv`);
      expect(
        text === wanted,
        `${name}: ${table.name}.csv is\n${text.slice(0, 600)}and not\n${wanted.slice(0, 600)}`
      );
    }
  }
}
