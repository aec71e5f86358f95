// This file clicks through the page in headless Chromium, as a planner would, and in Firefox if it
// is installed: make page-test. With SHOTS=1 it takes the screenshots of docs/ instead. SLACK
// multiplies the time limits, for a busy machine.
import fs from 'node:fs';
import path from 'node:path';
import { execFileSync } from 'node:child_process';
import { fileURLToPath, pathToFileURL } from 'node:url';
import { browsers } from './browsers.mjs';

const top = path.join(path.dirname(fileURLToPath(import.meta.url)), '..');
const url = pathToFileURL(path.join(top, 'bin', 'mcf.html')).href;
const slack = Number(process.env.SLACK ?? 1);
let wrong = 0;
const expect = (ok, what) => { console.log(`${ok ? 'ok   ' : 'WRONG'} ${what}`); wrong += !ok; };

// This function returns a planner's actions on a page.
function hands(page) {
  const set = (id, text) =>
    page.run(`(() => {
      const it = document.getElementById('${id}');
      it.value = ${JSON.stringify(text)};
      it.dispatchEvent(new Event('input'));
    })()`);
  const ended = async () => {
    await page.until(
      "document.body.dataset.status && document.body.dataset.status !== 'running'",
      120
    );
    return {
      status: await page.run('document.body.dataset.status'),
      took: Number(await page.run('document.body.dataset.took')),
      text: await page.run("document.getElementById('result').innerText"),
    };
  };
  const act = async (expression) => {
    await page.run(`(() => { document.body.dataset.status = ''; ${expression}; })()`);
    return ended();
  };
  return {
    set,
    act,
    ended,
    go: () => act("document.getElementById('go').click()"),
    kind: (kind) => page.run(`document.querySelector('input[name=kind][value=${kind}]').click()`),
    example: (name) =>
      act(`(() => {
        const it = document.getElementById('example');
        it.value = [...it.options].find((one) => one.textContent === '${name}').value;
        it.dispatchEvent(new Event('change'));
      })()`),
  };
}

const plain = (text) => text.replace(/\u202f/g, '').replace(/\u2212/g, '-');

// This function runs the stored plans: the page shows what mcf_plan says.
async function plans(page, { example }) {
  for (const name of fs.readdirSync(path.join(top, 'examples', 'plans'))
    .filter((one) => fs.existsSync(path.join(top, 'examples', 'plans', one, 'expected')))) {
    const said = fs.readFileSync(
      path.join(top, 'examples', 'plans', name, 'expected', 'said.txt'),
      'utf8'
    );
    const { status, text } = await example(name);
    const wanted = [
      /(?:cost|value) ([\d.,]+)\.\n/.exec(said)?.[1],
      ...[...said.matchAll(/^ {2}(.*[:,].*\.)$/gm)].map(([, sentence]) =>
        sentence.replace(/\(--\w+ .*/, '')
      ),
    ].filter(Boolean);
    const found = { 0: 'flow', 1: 'blocked', 2: 'unread' }[/status (\d)/.exec(said)[1]];
    const balanced = (sentence) =>
      /exceeds/.test(sentence) && /Supplies and demands must be equal/.test(text);
    expect(
      status === found && wanted.every((part) => plain(text).includes(part) || balanced(part)),
      `${name}: ${status}, ${wanted.length} texts`
    );
  }
}

async function planner(page, { set, act, go, kind, example, ended }) {
  await example('network');
  const rows = () =>
    page.run("document.querySelectorAll('table[aria-label=\"Routes\"] tbody tr:not(.gap)').length");
  const sight = await rows();
  await page.run("dispatchEvent(new Event('beforeprint'))");
  expect(sight < 60 && await rows() === 176, 'all routes are printed');
  await page.run("dispatchEvent(new Event('afterprint'))");
  expect(await rows() === sight, 'and those in sight stay');
  const filter = (words) =>
    page.run(`(() => {
      const it = document.querySelector('input[aria-label="filter Routes"]');
      it.value = '${words}';
      it.dispatchEvent(new Event('input'));
    })()`);
  const foot = async () =>
    plain(await page.run("document.querySelector('table[aria-label=\"Routes\"] tfoot').innerText"))
      .trim()
      .split(/\s{2,}|\t/);
  const whole = await foot();
  await filter('klagenfurt');
  const part = await foot();
  expect(
    /^of \d+ of 176 lines$/.test(part[0]) && Number(part[1]) < Number(whole[0]),
    `the total of the rows in sight: ${part}`
  );
  await filter('');
  expect(String(await foot()) === String(whole), 'and of all again');
  const summed = async () => plain(await page.run(`(() => {
    const section = document.querySelector('section select').closest('section');
    const [field, table] = [section.querySelector('select'), section.querySelector('table')];
    return [field.value, table.getAttribute('aria-label'), table.tFoot.innerText].join('|');
  })()`)).trim();
  const byName = await summed();
  await page.run(`(() => {
    const field = document.querySelector('section select');
    field.value = 'routes by to';
    field.dispatchEvent(new Event('change'));
  })()`);
  const byEnd = await summed();
  expect(
    byName.startsWith('places by name|Sums of places by name|')
      && byEnd.startsWith('routes by to|Sums of routes by to|')
      && byEnd.endsWith(whole[0]),
    `sums by another column, whose total is that of the routes: ${byEnd}`
  );
  await page.run("document.getElementById('ranges').click()");
  const ranged = await example('degenerate');
  expect(
    ranged.status === 'flow' && /cost may rise to/i.test(ranged.text),
    'ranges of costs, if they are chosen'
  );
  await page.run("document.getElementById('ranges').click()");
  await example('transport');
  const sort = (title, head) =>
    page.run(`[...document.querySelectorAll('table[aria-label="${title}"] th')]
      .find((it) => it.textContent === '${head}').click()`);
  const first = (title, column) =>
    page.run(`document.querySelectorAll('table[aria-label="${title}"] tbody tr')[0]
      .cells[${column}].innerText`);
  await sort('Routes', 'total');
  expect(await first('Routes', 6) === '135', 'sorted by total, the greatest first');
  await page.run("[...document.querySelectorAll('table[aria-label=\"Routes\"] th')][0].focus()");
  await page.key('Enter', 13);
  expect(await first('Routes', 0) === 'Bäckerei Leoben', 'sorted by name, by the keyboard');
  const cell = (head, from, to) =>
    `[...document.querySelectorAll('input.cell')].find((it) =>
      it.getAttribute('aria-label') === '${head} of ${from}${to ? ` to ${to}` : ''}')`;
  const change = (head, from, to, value) =>
    act(`(() => {
      const it = ${cell(head, from, to)};
      it.focus();
      it.value = '${value}';
      it.dispatchEvent(new Event('change'));
    })()`);
  let { text } = await change('most', 'Mühle Nord', 'Lager Linz', 46);
  expect(
    text.includes('Cost before 980, now 969;') && text.includes('Least cost: 969'),
    'one more unit of room saves just the 11 that were told'
  );
  expect(
    await page.run(`document.activeElement === ${cell('most', 'Mühle Nord', 'Lager Linz')}`),
    'the changed cell keeps the focus'
  );
  ({ text } = await act(`[...document.querySelectorAll('#result button')]
    .find((it) => it.textContent === 'Take it back').click()`));
  expect(text.includes('Least cost: 980'), 'a change is taken back');
  const press = (label) => `[...document.querySelectorAll('#result button')]
    .find((it) => it.textContent === '${label}').click()`;
  await page.run(press('Keep this plan'));
  ({ text } = await change('most', 'Mühle Nord', 'Lager Linz', 46));
  expect(
    /\d of \d+ amounts differ\./.test(text) && /plan 1\s+now\s+cost\s+980\s+969\s/i.test(text),
    'a plan that was kept stands beside the next one'
  );
  await page.run(press('Forget the kept plans'));
  ({ text } = await act(press('Take it back')));
  expect(!text.includes('amounts differ'), 'and is forgotten');
  await set('title', 'Week <7>');
  ({ text } = await go());
  const above = await page.run(
    "[...document.querySelectorAll('.picture svg text')].slice(0, 3)"
      + ".map((it) => it.textContent).join('|')"
  );
  expect(
    /^Week <7>\nLeast cost: 980\n+\d{4}-\d\d-\d\d: Places, Routes\n/.test(text)
      && await page.run('document.title') === 'Week <7>'
      && /^Week <7>\|A least-cost plan: cost 980\|\d{4}-\d\d-\d\d: Places, Routes$/.test(above),
    `title, date and tables: ${above}`
  );
  await set('title', '');
  const blocked = await change('supply', 'Bäckerei Wien', '', -37);
  expect(
    blocked.status === 'blocked'
      && blocked.text.includes('supply 110, demand 111')
      && blocked.text.includes('Before, a plan cost 980.'),
    'a change that leaves no plan'
  );
  const wrongCell = await change('supply', 'Bäckerei Wien', '', 'x');
  expect(
    wrongCell.status === 'unread' && wrongCell.text.includes("column supply: 'x' is no number"),
    'a change that is no number'
  );
  await set('places', 'name\tsupply\nA\t2\nB\t-2\n');
  await set('routes', 'from\tto\tmost\tcost\nA\tB\t\t1,5\n');
  ({ text } = await go());
  expect(text.includes('Least cost: 3'), 'tables that were pasted, with tabs');
  await set('places', 'name\tsupply\nA\t4000\nB\t-16000\n');
  await set('unit', ' hl ');
  await set('currency', '€');
  const isAsked = () => page.run("!document.getElementById('penalty').disabled");
  const early = await isAsked();
  await page.run("document.getElementById('short').click()");
  expect(!early && await isAsked(), 'a penalty is asked for where demands may be unmet');
  await set('penalty', ' 2,5 ');
  ({ text } = await go());
  const heading = await page.run("document.querySelector('.picture svg text').textContent");
  expect(
    plain(text).includes('Least cost: 36000 €')
      && /\b12000 hl\s*are missing/.test(plain(text))
      && text.includes('12000 are missing at: B 12000, which costs 30000 of that.')
      && plain(heading) === 'A least-cost plan: cost 36000 €',
    `a penalty, with a unit and a currency: ${heading}`
  );
  await set('penalty', '2.5');
  const other = await go();
  expect(
    other.status === 'unread'
      && other.text.includes('penalty 2.5 under Choices: this is no cost, written as in the tables'),
    'a penalty with another mark than the tables'
  );
  await page.run("document.getElementById('short').click()");
  ({ text } = await go());
  expect(
    !await isAsked() && plain(text).startsWith('No plan exists: supply 4000 hl, demand 16000 hl'),
    'and none where demands must be met'
  );
  for (const id of ['penalty', 'unit', 'currency']) await set(id, '');
  const dropped = (name, content) => `new File([${JSON.stringify(content)}], '${name}')`;
  const places = dropped('a.csv', 'name;supply\nÄ;3\nB;-3\n');
  const routes = dropped('b.csv', 'from;to;most;cost\nÄ;B;2;4\n');
  await page.run(`(() => {
    const data = new DataTransfer();
    for (const file of [${places}, ${routes}]) data.items.add(file);
    dispatchEvent(new DragEvent('drop', { dataTransfer: data }));
  })()`);
  await page.until("document.getElementById('routes').value.includes('Ä;B')");
  ({ text } = await go());
  expect(
    text.includes('Ä must send 3, and can send only 2, over Ä -> B (2). Short by 1.')
      && text.includes('1 of supply elsewhere'),
    'files that were dropped, and why there is no plan'
  );
  await page.run(`(() => {
    const data = new DataTransfer();
    for (const file of [
      ${dropped('k.txt', 'name=Ort\r\nmost=Menge\r\n')}, ${dropped('c.xlsx', 'PK\u0003\u0004')},
    ]) data.items.add(file);
    dispatchEvent(new DragEvent('drop', { dataTransfer: data }));
  })()`);
  await page.until("document.getElementById('result').innerText.includes('this is a workbook')", 10);
  expect(
    await page.run("document.getElementById('heads').value") === 'name=Ort most=Menge'
      && await page.run("document.querySelector('[name=kind]:checked').value") === 'flow',
    'a file of heads, and a workbook, which is told at once'
  );
  await set('heads', '');
  await page.run(`(() => {
    const data = new DataTransfer();
    data.items.add(${dropped('x.csv', 'Standort;Menge\nA;3\nB;-3\n')});
    dispatchEvent(new DragEvent('drop', { dataTransfer: data }));
  })()`);
  await page.until("document.getElementById('places').value.startsWith('Standort')", 10);
  expect(true, 'a table with demands is one of places, whatever its heads are');
  await kind('pairs');
  await set('costs', 'who,what,cost\nAnna,Früh,1\nBert,Früh,2\n');
  ({ text } = await go());
  expect(
    text.includes('2 persons compete for 1 thing: Anna, Bert can only get Früh.'),
    'pairs, and who competes'
  );
  await kind('text');
  await set('dimacs', 'p min 2 1\nn 1 1\nx\n');
  ({ text } = await go());
  expect(
    text.includes('Line 3: a line begins with p, n, a or c (kind).')
      && text.includes('accepted refusal 3 kind'),
    'a refusal, judged'
  );
  await set('dimacs', fs.readFileSync(path.join(top, 'examples', 'transport.min'), 'utf8'));
  ({ text } = await go());
  expect(text.includes('Least cost: 14') && text.includes('accepted flow 14'), 'a text');
  await set('engine', 'fast');
  ({ text } = await go());
  expect(
    await page.run("document.getElementById('engine').value") === 'fast'
      && text.includes('accepted flow 14'),
    'a text by another engine'
  );
  await set('engine', 'auto');
  await ended();
}

// This function tests names that look like markup or scripts, extreme coordinates, and a separator
// that a line names. All are plain text, and the page can reread a changed table.
async function hostile(page, { set, act, go, kind }) {
  const names = [
    '<img src=x onerror="document.title=1">',
    '</text><script>document.title=1</script>&amp;',
  ];
  const title = await page.run('document.title');
  await kind('flow');
  await set(
    'places',
    `sep=|\nname|supply|x|y|constructor\n${names[0]}|2|-1e308|0|${names[1]}\n`
      + `${names[1]}|-2|1e308|5e-324|__proto__\n`
  );
  await set('routes', `sep=|\nfrom|to|most|cost\n${names.join('|')}|5|1\n`);
  const plan = await go();
  expect(
    plan.status === 'flow' && names.every((name) => plan.text.includes(name)),
    'names that would be marks are told as they are'
  );
  const marks = await page.run("document.querySelectorAll('#result img, #result script').length");
  expect(marks === 0 && await page.run('document.title') === title, 'and are no marks');
  const drawn = await page.run("document.querySelector('.picture svg').outerHTML");
  expect(
    !drawn.includes('NaN') && !drawn.includes('Infinity'),
    'spots as far as numbers go are drawn'
  );
  const { text } = await act(`(() => {
    const it = [...document.querySelectorAll('input.cell')]
      .find((one) => one.getAttribute('aria-label').startsWith('cost of'));
    it.value = '3';
    it.dispatchEvent(new Event('change'));
  })()`);
  expect(
    text.includes('Cost before 2, now 6;'),
    'a change of a table whose separator a line names'
  );
  await page.run(`(() => {
    const { arrayBuffer } = File.prototype, data = new DataTransfer();
    File.prototype.arrayBuffer = async () => {
      File.prototype.arrayBuffer = arrayBuffer;
      throw Error('unreadable');
    };
    data.items.add(new File(['x'], 'plans'));
    dispatchEvent(new DragEvent('drop', { dataTransfer: data }));
  })()`);
  await page.until("document.getElementById('result').innerText.includes('plans: this can')", 10);
  expect(true, 'a folder that was dropped is told');
}

// This function tests large instances: the page keeps the time limits, responds meanwhile, and
// stops on demand.
async function large(page, { set, go, kind, ended }) {
  let seed = 7;
  const draw = (count) => {
    seed = (seed * 1103515245 + 12345) % 2147483648;
    return Math.floor(seed / 65536) % count;
  };
  const count = 300;
  const supplies = Array.from({ length: count }, (_, k) => (k < 30 ? 270 : -30));
  const routes = [];
  for (let k = 30; k < count; k++) routes.push([k % 30, k, 40, 5 + draw(90)]);
  while (routes.length < 3000) routes.push([draw(count), draw(count), 5 + draw(30), 1 + draw(60)]);
  await kind('flow');
  const placeLines = supplies.map((supply, k) =>
    `P${k}\t${supply}\t${draw(1000)}\t${draw(700)}\n`
  );
  const routeLines = routes.map(([from, to, ...more]) => `P${from}\tP${to}\t${more.join('\t')}\n`);
  await set('places', `name\tsupply\tx\ty\n${placeLines.join('')}`);
  await set('routes', `from\tto\tmost\tcost\n${routeLines.join('')}`);
  const plan = await go();
  expect(
    plan.status === 'flow'
      && plan.took < 2000 * slack
      && await page.run("document.querySelector('.picture svg') !== null"),
    `300 places and 3000 routes, to the picture: ${plan.took} ms`
  );
  const lines = Array
    .from({ length: 100000 }, (_, k) => `P${k % 30}\tP${30 + k % 270}\t1\t${1 + k % 97}\n`)
    .join('');
  await set('routes', `from\tto\tmost\tcost\n${lines}`);
  const many = await go();
  await page.run("document.querySelector('.sheet[aria-label=\"Routes\"]').scrollTop = 2e6");
  const row = 'table[aria-label="Routes"] tbody tr[aria-rowindex="64520"]';
  await page.until(`document.querySelector('${row}') !== null`, 10);
  expect(
    many.status === 'flow'
      && await page.run("document.querySelectorAll('table[aria-label=\"Routes\"] tbody tr').length")
        < 80,
    `100000 routes, of which those in sight are made: ${many.took} ms`
  );
  expect(
    await page.run(`[...document.querySelectorAll('table[aria-label="Routes"] tbody tr:not(.gap)')]
      .every((row) => row.getBoundingClientRect().height === 31)`),
    'rows are as high as scrolling takes them to be'
  );
  const big = execFileSync(
    'python3',
    [path.join(top, 'bench', 'gen.py'), 'netgen', String(2 ** 14)],
    { maxBuffer: 2 ** 28 }
  ).toString();
  await kind('text');
  await set('dimacs', big);
  const first = await go();
  const solved = () =>
    page.run("/Solved in (\\d+) ms/.exec(document.getElementById('result').innerText)?.[1]");
  const [problem] = /^p min.*/m.exec(big);
  expect(
    first.status === 'flow' && Number(await solved()) < 1000 * slack,
    `${problem}: solved in ${await solved()} ms, shown after ${first.took} ms`
  );
  await page.run(`(() => {
    document.getElementById('engine').value = 'cancel';
    let last = performance.now(), longest = 0;
    setInterval(() => {
      const now = performance.now();
      longest = Math.max(longest, now - last);
      last = now;
      document.body.dataset.longest = longest;
    }, 20);
    document.body.dataset.status = '';
    document.getElementById('go').click();
  })()`);
  await new Promise((resolve) => { setTimeout(resolve, 3000); });
  const longest = Number(await page.run('document.body.dataset.longest'));
  await page.run("document.getElementById('go').click()");
  const { text } = await ended();
  expect(
    text.includes('Stopped.') && longest < 500 * slack,
    `alive while it solves (the longest pause is ${longest.toFixed(0)} ms), and stopped`
  );
  await page.run("document.getElementById('engine').value = 'auto'");
}

async function through(opened) {
  const page = await opened(url);
  try {
    console.log(await page.run('navigator.userAgent'));
    await page.until('document.body.dataset.ready');
    const doing = hands(page);
    await plans(page, doing);
    await planner(page, doing);
    await hostile(page, doing);
    await large(page, doing);
    expect((await doing.example('transport')).status === 'flow', 'and run again');
    for (const trouble of page.troubles) expect(false, trouble);
  } finally { await page.close(); }
}

async function shots(opened) {
  for (const [name, file, dark] of [
    ['transport', 'page-plan.png', false],
    ['blocked', 'page-blocked.png', false],
    ['network', 'page-dark.png', true],
  ]) {
    const page = await opened(url, { dark });
    try {
      await page.until('document.body.dataset.ready');
      await hands(page).example(name);
      await page.shot(path.join(top, 'docs', file));
    } finally { await page.close(); }
  }
}

const found = browsers();
for (const [name, opened] of Object.entries(process.env.SHOTS ? {} : found)) {
  if (opened) await through(opened);
  else console.log(`page-test: skipped: ${name} isn't there`);
}
if (process.env.SHOTS) await shots(found.chromium);
process.exit(wrong ? 1 : 0);
