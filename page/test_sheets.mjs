// This file tests what sheets and the lines around them say about plans, with given answers and
// without the module.
import { totalsOf } from './grid.js';
import { headsOf } from './heads.js';
import { csvOf, flowSummary, flowsTable } from './report.js';
import { flowOf } from './running.js';
import { changesShown } from './compare.js';
import { blockedShown, planShown } from './sheets.js';

// This function returns the answer to tables whose routes carry these amounts; at the places, such
// amounts stay or are missing. One more unit costs and saves nothing.
function answerOf(kind, places, routes, { mark = '.', cost = '0', carries = [], unmet = [] }) {
  const rows = [['answer', kind], ...(kind === 'plan' ? [['cost', cost]] : [['side', 'send']])];
  const [placeRows, routeRows] = [places, routes].map((text) =>
    text.trim().split('\n').map((line) => line.split(text.includes(';') ? ';' : ','))
  );
  carries.forEach(([carried, total], k) => {
    const [tail, head] = routeRows[k + 1];
    rows.push(['route', k + 2, tail, head, carried, total, '', '0', 'yes', '0']);
  });
  placeRows.slice(1).forEach(([name], k) => {
    const [stays = '0', missing = '0'] = unmet[k] || [];
    rows.push(['place', k + 2, name, stays, missing, '0', '1', '', '', '', '', '', '']);
  });
  rows.push(['mark', mark]);
  for (const [name, [heads, ...lines]] of [['places', placeRows], ['routes', routeRows]]) {
    rows.push(['heads', name, 1, ...heads], ...lines.map((cells, k) => ['row', name, k + 2, ...cells]));
  }
  return rows
    .map((row) => `${row.map((cell) => `"${String(cell).replaceAll('"', '""')}"`).join(',')}\n`)
    .join('');
}

// This function returns what the page makes of such an answer.
async function flow(kind, places, routes, figures, policy = {}) {
  const answer = answerOf(kind, places, routes, figures);
  const solver = { plan: async () => ({ status: kind === 'plan' ? 'flow' : 'blocked', answer }) };
  const sources = [{ name: 'places', text: places }, { name: 'routes', text: routes }];
  return flowOf(solver, sources, { reading: {}, policy });
}

// Routes of one row of a matrix share its line, and two of them may join the same places: each has
// its own result in each period.
async function matrixOverPeriods(expect) {
  const lists = [['B', '1.5'], ['C', '2'], ['C', '3']], carried = ['1', '2', '0'];
  const rows = [['answer', 'plan'], ['cost', '11']];
  for (const period of ['May', 'June']) {
    lists.forEach(([to], k) => {
      rows.push(['route', 2, 'A', to, carried[k], '0', '', '0', 'yes', '0', period, period]);
    });
  }
  for (const period of ['May', 'June']) {
    for (const [k, name] of ['A', 'B', 'C'].entries()) {
      rows.push(['place', k + 2, name, 0, 0, 0, 1, '', '', '', '', '', '', period]);
    }
  }
  rows.push(['list', 'routes', 3], ['mark', '.']);
  rows.push(['heads', 'places', 1, 'name', 'supply', 'period']);
  rows.push(...[['A', 3, 'May'], ['B', -1, 'June'], ['C', -2, '']].map((cells, k) =>
    ['row', 'places', k + 2, ...cells]
  ));
  rows.push(['heads', 'routes', 1, 'from', 'to', 'most', 'cost']);
  rows.push(...lists.map(([to, cost]) => ['row', 'routes', 2, 'A', to, '', cost]));
  const answer = rows.map((row) => `${row.map((cell) => `"${cell}"`).join(',')}\n`).join('');
  const solver = { plan: async () => ({ status: 'flow', answer }) };
  const texts = ['name;supply;period\nA;3;May\nB;-1;June\nC;-2;\n', ';A;B;C;C\nA;;1.5;2;3\n'];
  const sources = texts.map((text, k) => ({ name: ['places', 'routes'][k], text }));
  const { plan, problem } = await flowOf(solver, sources, { reading: {}, policy: {} });
  const told = plan.routes.map(({ carries }, k) => [problem.routes[k].departs, String(carries)]);
  expect(
    JSON.stringify(told) === JSON.stringify(
      carried.flatMap((amount) => [['May', amount], ['June', amount]])
    ),
    JSON.stringify(told)
  );
}

// If two plans deliver different amounts, the page says so before their costs.
async function delivered(expect) {
  const places = 'name;supply\nA;2,5\nB;-1,5\nC;-1\n';
  const routes = 'from;to;most;cost\nA;B;;2\nA;C;;3\n';
  const plan = async (table, cost, carries, unmet) =>
    (await flow('plan', table, routes, { mark: ',', cost, carries, unmet })).plan;
  const whole = await plan(places, '6', [['1.5', '3'], ['1', '3']]);
  const part = await plan(
    places, '3', [['1.5', '3'], ['0', '0']], [['1', '0'], ['0', '0'], ['0', '1']]
  );
  const said = (before, now) => changesShown(before, now).text;
  expect(
    said(whole, part).startsWith(
      'The plan before delivers 2,5 in all, this one 1,5: mind that where you compare what they '
        + 'cost. Cost before 6, now 3;'
    ),
    said(whole, part)
  );
  expect(said(whole, whole).startsWith('Cost before 6, now 6;'), said(whole, whole));
  const turned = places.replace('-1,5', '-1').replace('C;-1', 'C;-1,5');
  const other = await plan(turned, '6.5', [['1', '2'], ['1.5', '4.5']]);
  expect(
    said(whole, other).startsWith('Both deliver 2,5 in all, but not the same at each place: mind'),
    said(whole, other)
  );
}

// Costs that rise by steps have the tables' decimal mark, and another sign between steps.
async function steps(expect) {
  const places = 'name;supply\nA;2,5\nB;-2,5\n';
  const routes = 'from;to;most;cost;most 2;cost 2\nA;B;2;3,92;;5,92\n';
  const figures = { mark: ',', cost: '10.8', carries: [['2.5', '10.8']] };
  const { plan } = await flow('plan', places, routes, figures);
  const { blocked } = await flow('no plan', places, routes, { mark: ',' });
  for (const { sheets } of [planShown(plan), blockedShown(blocked)]) {
    const cell = sheets.find(({ title }) => title === 'Routes').row(0).cells[4];
    expect(cell === '3,92 / 5,92', cell);
  }
}

// Totals below filtered rows count only these rows and say so. They are exact.
async function totals(expect) {
  const places = 'name,supply\nA,30\nB,-30\n';
  const routes = 'from,to,most,cost\nA,B,10,0.1\nA,B,10,0.25\nA,B,10,12345678901234567890.5\n';
  const carries = [['10', '1'], ['10', '2.5'], ['10', '123456789012345678905']];
  const cost = '123456789012345678908.5';
  const { plan } = await flow('plan', places, routes, { cost, carries });
  const sheet = planShown(plan).sheets.find(({ title }) => title === 'Routes');
  const total = (order) =>
    totalsOf(sheet, order, `${order.length} of 3 lines`).filter(Boolean).join('; ');
  expect(total([2, 0, 1]) === '123456789012345678908.5', total([2, 0, 1]));
  expect(total([1, 0]) === 'of 2 of 3 lines; 3.5', total([1, 0]));
  expect(total([]) === 'of 0 of 3 lines; 0', total([]));
  expect(totalsOf({ count: 3 }, [1], '').length === 0, 'a sheet without totals');
}

// The rows of the sums that are shown, with the line below them.
const rowsOf = ({ count, row, totals }) =>
  [...Array.from({ length: count }, (_, k) => row(k).cells), totals].map(String).join('; ');

// The page sums by names first, and by any other column that is chosen. The table to save has both.
async function sums(expect) {
  const places = 'name;supply;Region\nA;-2,5;Süd\nB;7,25;Nord\nC;-6;Süd\n';
  const routes = 'from;to;most;cost;both;Art;carries;total;free;one_more_saves;exact;'
    + 'one_more_carried_costs\nA;B;9;1,5;yes;Bahn;;;;;;\nB;C;5;2;;;;;;;;\nA;C;4;0,75;;Bahn;;;;;;\n';
  const carries = [['-2.5', '3.75'], ['4.75', '9.5'], ['0', '0']];
  const unmet = [[], [], ['0', '1.25']], figures = { mark: ',', cost: '13.25', carries, unmet };
  const { plan } = await flow('plan', places, routes, figures, { short: true });
  const shown = planShown(plan), { views } = shown.sheets.find((sheet) => sheet.views);
  expect(
    views.labels.join()
      === 'places by name,places by Region,routes by from,routes by to,routes by both,routes by Art',
    views.labels.join()
  );
  const heads = (k) => views.sheet(k).columns.map(({ head }) => head).join();
  expect(heads(0) === 'name,comes in,goes out,sends,takes,missing,total', heads(0));
  expect(heads(1) === 'Region,lines,comes in,goes out,sends,takes,missing,total', heads(1));
  for (const [k, rows] of [
    [0, 'A,2.5,0,0,2.5,0,0; B,0,7.25,7.25,0,0,13.25; C,4.75,0,0,4.75,1.25,0; '
      + ',7.25,7.25,7.25,7.25,1.25,13.25'],
    [1, 'Süd,2,7.25,0,0,7.25,1.25,0; Nord,1,0,7.25,7.25,0,0,13.25; '
      + ',3,7.25,7.25,7.25,7.25,1.25,13.25'],
    [2, 'B,2,7.25,13.25; A,1,0,0; ,3,7.25,13.25'],
    [3, 'A,1,2.5,3.75; C,2,4.75,9.5; ,3,7.25,13.25'],
    [5, 'Bahn,2,2.5,3.75; ,1,4.75,9.5; ,3,7.25,13.25'],
  ]) {
    expect(rowsOf(views.sheet(k)) === rows, `${views.labels[k]}: ${rowsOf(views.sheet(k))}`);
  }
  const told = (columns) => shown.lead().includes(`Columns carried along, not used: ${columns}.`);
  expect(told('Region, Art'), shown.lead().join('; '));
  views.chosen = 1;
  expect(told('Art'), `a column of sums is used: ${shown.lead()}`);
  views.chosen = 0;
  expect(views.sheet(2).row(1).kind === 'idle' && views.sheet(2).hasIdle, 'routes that are idle');
  const text = () => csvOf(shown.tables()[2], ',');
  expect(!text().includes('Region;') && !text().includes(';carries;'), text());
  views.chosen = 5;
  expect(
    text().startsWith(
      'table;by;value;lines;comes_in;goes_out;sends;takes;stays;missing;carries;total\n'
        + 'places;name;A;1;2,5;0;0;2,5;0;0;;0\n'
    ) && text().endsWith('routes;Art;Bahn;2;;;;;;;2,5;3,75\nroutes;Art;;1;;;;;;;4,75;9,5\n'),
    text()
  );
}

// A penalty is a part of the cost, and has decimals of its own. Units are told once each: of what is
// missing, and of the cost.
async function penalties(expect) {
  const places = 'name;supply\nA;2,5\nB;-4\n', routes = 'from;to;most;cost\nA;B;;2\n';
  const figures = { mark: ',', carries: [['2.5', '5']], unmet: [[], ['0', '1.5']] };
  const made = async (penalty, cost) => {
    const told = { ...figures, cost }, policy = { short: true, penalty };
    const { plan } = await flow('plan', places, routes, told, policy);
    return plan;
  };
  const plan = await made('0,25', '5.375'), free = await made('0', '5'), lines = flowSummary(plan);
  const missing = '1,5 are missing at: B 1,5, which costs 0,375 of that.';
  expect(lines[0].endsWith(': cost 5,375.') && lines[2] === missing, lines.join('; '));
  const row = (one) => csvOf(flowsTable(one), ',').split('\n')[2];
  expect(row(plan) === '(missing);B;;;1,5;0,375;;;;', row(plan));
  const caption = { title: '', source: '', unit: 'hl', currency: 'EUR' };
  const { headline, facts, lead, scenes } = planShown(plan), [scene] = scenes(caption);
  expect(headline(caption) === 'Least cost: 5,375 EUR', headline(caption));
  expect(scene.heading === 'A least-cost plan: cost 5,375 EUR', 'the picture');
  expect(scene.notes.flowing.endsWith('(widest 2,5 hl)'), 'the legend');
  expect(lead().includes(missing), lead().join('; '));
  expect(String(facts[4]) === '1.5,are missing,true', String(facts));
  expect(flowSummary(free)[2] === '1,5 are missing at: B 1,5.', flowSummary(free)[2]);
  expect(row(free) === '(missing);B;;;1,5;0;;;;', row(free));
  const table = 'name;supply;penalty\nA;2,5;\nB;-4;0,5\n', told = { ...figures, cost: '5.75' };
  const { plan: own } = await flow('plan', table, routes, told, { short: true, penalty: '0,25' });
  expect(flowSummary(own)[2] === missing.replace('0,375', '0,75'), flowSummary(own)[2]);
  expect(row(own) === '(missing);B;;;1,5;0,75;;;;', row(own));
  const unasked = own.problem.told({ short: false }).join('; ');
  expect(
    unasked === "Penalties aren't used, since no demand may be short (a choice lets it be short).",
    unasked
  );
  const least = row(await made('', '5'));
  expect(least === '(missing);B;;;1,5;;;;;', least);
  await made('0.25', '5').then(
    () => expect(false, 'a penalty with another mark'),
    ({ lines: [told] }) => expect(
      told === 'penalty 0.25 under Choices: this is no cost, written as in the tables: write 0,25',
      told
    )
  );
}

// The lead names likely mistakes, and the columns that are copied.
async function leads(expect) {
  const places = 'name,supply,Region\nA,1,n\nB,1,s\n';
  const routes = 'from,to,most,cost,min lot\nA,B,,1,5\n';
  const unmet = [['1', '0'], ['1', '0']], policy = { unused: true };
  const { plan } = await flow('plan', places, routes, { carries: [['0', '0']], unmet }, policy);
  const { blocked } = await flow('no plan', places, routes, {}, policy);
  for (const shown of [planShown(plan), blockedShown(blocked)]) {
    const lead = shown.lead();
    expect(
      lead[0].startsWith(
        'Warning: no supply is below 0, so no place takes anything, and all that is sent stays: was'
      ),
      lead[0]
    );
    expect(lead.includes('Columns carried along, not used: Region, min lot.'), lead.join('; '));
  }
}

// Titles may have blanks and equals signs; heads of steps are two words.
function titled(expect) {
  const heads = headsOf(' supply=Angebot (t) most 2=a=b  cost 10=c to=Nach');
  expect(
    JSON.stringify(heads) === JSON.stringify(
      { supply: 'Angebot (t)', 'most 2': 'a=b', 'cost 10': 'c', to: 'Nach' }
    ),
    `own heads: ${JSON.stringify(heads)}`
  );
  for (const text of ['suply=Angebot', 'to= from=Von', 'to 2=Nach']) {
    let told = '';
    try { headsOf(text); } catch ({ lines }) { told = lines[0]; }
    expect(told.includes('write HEAD=NAME'), `own heads ${text}: ${told}`);
  }
  expect(Object.keys(headsOf('')).length === 0, 'no own heads');
}

export default async function test(expect) {
  titled(expect);
  const parts = [leads, totals, sums, steps, delivered, penalties, matrixOverPeriods];
  for (const part of parts) await part(expect);
}
