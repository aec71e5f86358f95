// This file puts plans side by side, as the tests of mcf_plan compare do, and compares the page's
// table with what the tool writes there.
import { Comparison, flowSide, pairsSide } from './compare.js';
import { csvOf } from './report.js';
import { flowOf, pairsOf } from './running.js';
import { asked, solverHere } from './test_plans.mjs';

const PLACES = 'name;supply\nMill;30,5\nWien;-18,5\nGraz;-12\n';
const ROUTES = 'from;to;most;cost;most 2;cost 2;both\nMill;Wien;15;4,25;2;5,5;\n'
  + 'Mill;Graz;20;7;;;yes\nGraz;Wien;10;2;;;\n';
const PAIRS = ',X,Y,Z\nA,1,5,3\nB,2,9,2\n';

// This function returns a comparison as a table, with the labels of its plans.
const tableOf = (kept) => {
  const found = new Comparison(kept);
  return csvOf(found.table(), found.mark);
};

async function flows(expect, solver) {
  const narrow = ROUTES.replace('20;7', '12;7');
  const words = ['--short', 'allow', '--unused', 'allow', '--penalty', '20'];
  const calls = [
    ['wide', ROUTES, []], ['new', `${ROUTES}Mill;Wien;1;3;;;\n`, []], ['narrow', narrow, words],
  ];
  const kept = [];
  for (const [label, routes, options] of calls) {
    const sources = [{ name: 'places', text: PLACES }, { name: 'routes', text: routes }];
    const { plan } = await flowOf(solver, sources, asked(options));
    kept.push({ label, side: flowSide(plan) });
  }
  const table = tableOf(kept);
  const wanted = 'figure;from;to;wide;new;narrow\ncost;;;172,25;166,25;188,75\n'
    + 'delivered;;;30,5;30,5;29\nstays;;;0;0;1,5\nmissing;;;0;0;1,5\n'
    + 'cost of what is missing;;;0;0;30\nroutes;;;3;4;3\nroutes that carry something;;;3;4;2\n'
    + 'full routes;;;1;2;2\ncarries;Mill;Wien;17;17;17\ncarries;Mill;Graz;13,5;12,5;12\n'
    + 'carries;Graz;Wien;1,5;0,5;0\ncarries;Mill;Wien;;1;\ncarries;Mill;(stays);0;0;1,5\n'
    + 'carries;(missing);Wien;0;0;1,5\n';
  expect(table === wanted, `plans side by side: ${table}`);
  const found = new Comparison(kept), [figures, amounts] = found.sheets();
  expect(
    found.lines().join('\n') === "5 of 6 amounts differ.\nThese plans don't deliver the same at "
      + 'each place: mind that where you compare what they cost.',
    found.lines().join('\n')
  );
  expect(String(figures.row(0).cells) === 'cost,172.25,166.25,188.75', figures.row(0).cells);
  expect(
    String(amounts.row(5).cells) === 'Mill,Wien,17,17,17,0',
    `those that differ come first: ${amounts.row(5).cells}`
  );
  const [one] = kept, same = new Comparison([one, one]);
  expect(same.lines().join() === '0 of 3 amounts differ.', same.lines().join());
  expect(same.figures.length === 5, `what is 0 in all plans: ${same.figures}`);
}

async function stock(expect, solver) {
  const kept = [], lead = 'from,to,most,cost,lead\nMill,Hub,,4,\nHub,Wien,,4,\nMill,Wien,,12,1\n';
  for (const [label, most] of [['much', 9], ['less', 2]]) {
    const text = 'name,period,supply,keep most,keep cost,first stock\n'
      + `Mill,Mo,5,,,\nHub,,,${most},1,1\nWien,Tu,-6,,,\n`;
    const sources = [{ name: 'places', text }, { name: 'routes', text: lead }];
    const { plan } = await flowOf(solver, sources, asked([]));
    kept.push({ label, side: flowSide(plan) });
  }
  const wanted = 'figure,from,to,much,less\ncost,,,50,62\ndelivered,,,6,6\n'
    + 'cost of what is kept,,,6,2\nroutes,,,5,5\nroutes that carry something,,,2,3\n'
    + 'full routes,,,0,0\ncarries,Mill (Mo),Hub (Mo),5,1\ncarries,Mill (Tu),Hub (Tu),0,0\n'
    + 'carries,Hub (Mo),Wien (Mo),0,0\ncarries,Hub (Tu),Wien (Tu),6,2\n'
    + 'carries,Mill (Mo),Wien (Tu),0,4\ncarries,Hub (first stock),(kept),1,1\n'
    + 'carries,Hub (Mo),(kept),6,2\n';
  expect(tableOf(kept) === wanted, `what places keep, side by side: ${tableOf(kept)}`);
}

async function pairs(expect, solver) {
  const kept = [];
  for (const [label, options] of [['least', []], ['most', ['--maximise']]]) {
    const { roster } = await pairsOf(solver, [{ name: 'costs', text: PAIRS }], asked(options));
    kept.push({ label, side: pairsSide(roster) });
  }
  const wanted = 'figure,who,what,least,most\ncost,,,3,12\npairs,,,2,2\n'
    + 'persons without a thing,,,0,0\nthings left over,,,1,1\n'
    + 'pair,A,X,1,\npair,B,Z,1,\npair,A,Z,,1\npair,B,Y,,1\n';
  expect(tableOf(kept) === wanted, `pairs side by side: ${tableOf(kept)}`);
  const lines = new Comparison(kept).lines();
  expect(
    lines[1] === "These plans don't have each thing as often: mind that where you compare what they "
      + 'cost.',
    lines.join('; ')
  );
}

export default async function test(expect) {
  const solver = solverHere();
  await flows(expect, solver);
  await stock(expect, solver);
  await pairs(expect, solver);
}
