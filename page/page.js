// @ts-check
// The page: its inputs, its results, and the runs between them.
import { Client } from './client.js';
import { Comparison, changesShown } from './compare.js';
import { BadTable } from './faults.js';
import { Grid } from './grid.js';
import { headsOf } from './heads.js';
import { svgsOf } from './picture.js';
import { csvOf } from './report.js';
import { runFlow, runPairs, runText } from './running.js';
import { textOf } from './tables.js';
import { el, grouped, pictureOf, saver } from './view.js';

/**
 * @typedef {import('./plan.js').FlowPlan} FlowPlan
 * @typedef {import('./view.js').Part} Part
 * @typedef {{ parts: Part[], sheets: Sheet[] }} Changes
 * @typedef {(sheets: Sheet[]) => HTMLElement[]} Making
 */

// This function returns an element of page.html; most are fields.
/** @type {(id: string) => HTMLInputElement} */
const $ = (id) => /** @type {HTMLInputElement} */ (document.getElementById(id));
/** @type {(query: string) => HTMLInputElement[]} */
const fields = (query) => [
  .../** @type {NodeListOf<HTMLInputElement>} */ (document.querySelectorAll(query)),
];
/** @type {Record<string, string>} */
const WHY = {
  memory: 'This browser doesn’t give the page enough memory.',
  rejected: 'The answer was not accepted, so nothing of it is shown.',
  failed: 'The run failed.',
  stopped: 'Stopped.',
  room: 'The run failed.',
  choice: 'The run failed.',
};
// A file longer than this isn't shown in its field.
const FIELD = 400000;
// A number below 0, as places that take have it, and hardly any costs of pairs.
const DEMAND = /[;,\t]"?[-\u2212][0-9]/;
/** @type {Record<string, string>} */
const FIELDS = {
  places: 'Places', routes: 'Routes', costs: 'Costs', groups: 'Groups', dimacs: 'Instance',
};

/** @type {Client} */
let solver;
let busy = false;
/** @type {FlowPlan | null} */
let plan = null;
/** @type {Grid[]} */
let grids = [];
// The plans that were kept, to be put beside others.
/** @type {{ label: string, side: Side }[]} */
let beside = [];
// The name and the bytes of the file in each field.
/** @type {Record<string, { name: string, bytes?: Uint8Array } | null>} */
const files = {};

/** @type {() => Example[]} */
const examples = () => JSON.parse($('examples').textContent);

// ---- Inputs

const kindOf = () => fields('input[name=kind]:checked')[0].value;

/** @type {(kind: string) => void} */
function chooseKind(kind) {
  fields(`input[name=kind][value=${kind}]`)[0].checked = true;
  for (const part of fields('[data-kind]')) part.hidden = part.dataset.kind !== kind;
}

/**
 * @param {string} id
 * @param {string} text
 * @param {{ name: string, bytes?: Uint8Array } | null} [file]
 */
function put(id, text, file = null) {
  $(id).value = text;
  files[id] = file;
}

/** @type {(id: string) => Source} */
function sourceOf(id) {
  const file = files[id];
  if (file && file.bytes) return { name: file.name, bytes: file.bytes };
  return { name: file ? file.name : FIELDS[id], text: $(id).value };
}

// This function returns the fields of persons and things: that of groups counts if it has some.
const pairFields = () => ['costs', ...$('groups').value.trim() ? ['groups'] : []];

/** @type {() => Choices} */
function choices() {
  const heads = headsOf($('heads').value);
  return {
    reading: {
      decimal: $('decimal').value || null,
      encoding: $('encoding').value || null,
      heads,
      fillDown: $('filldown').value.split(/[,;]/).map((title) => title.trim()).filter(Boolean),
    },
    policy: {
      unused: $('unused').checked,
      short: $('short').checked,
      ranges: $('ranges').checked,
      penalty: $('short').checked ? $('penalty').value.trim() : '',
    },
    each: /** @type {Choices['each']} */ ($('each').value || null),
    maximise: $('maximise').checked,
    crossing: $('crossing').checked ? 'check' : null,
    engine: $('engine').value,
  };
}

// This function returns the caption of a plan and its picture: the title, the date and the tables,
// and the units of amounts and of costs.
/** @type {(kind: string) => Caption} */
function captionOf(kind) {
  const now = new Date();
  /** @type {Record<string, string[]>} */
  const ids = { flow: ['places', 'routes'], pairs: pairFields(), text: ['dimacs'] };
  const names = ids[kind].map((id) => sourceOf(id).name);
  const date = [now.getFullYear(), now.getMonth() + 1, now.getDate()]
    .map((part) => String(part).padStart(2, '0'))
    .join('-');
  const line = (/** @type {string} */ text) => text.replace(/[\u0000-\u001f\u007f]/g, ' ').trim();
  const [title, unit, currency] = ['title', 'unit', 'currency'].map((id) => line($(id).value));
  return { title, source: line(`${date}: ${names.join(', ')}`), unit, currency };
}

// This function takes files that were chosen or dropped. The beginning of a file shows which field
// it is for.
/** @type {(list: FileList) => Promise<void>} */
async function take(list) {
  for (const file of list) {
    const bytes = await file.arrayBuffer().then((buffer) => new Uint8Array(buffer), () => null);
    if (!bytes) {
      showTrouble(new BadTable([`${file.name}: this can't be read; is it a folder?`]));
      continue;
    }
    const begin = new TextDecoder().decode(bytes.subarray(0, 4096));
    const first = begin.split('\n').find((line) => line.trim()) || '';
    const lines = begin.replace('\ufeff', '').split(/\r?\n/).filter((line) => line.trim());
    if (lines.length && lines.every((line) => /^[a-z]+(?: \d+)?=./.test(line))) {
      $('heads').value = lines.join(' ');
      continue;
    }
    let id = 'places';
    const isDimacs =
      /^[ \t]*(c([ \t].*)?\r?\n[ \t]*)*p[ \t]/.test(begin)
      || /\.(min|asn|dimacs)$/i.test(file.name);
    if (isDimacs) id = 'dimacs';
    else if (/\b(group|gruppe)\b/i.test(first)) id = 'groups';
    else if (/\b(from|von|most|both)\b/i.test(first)) id = 'routes';
    else if (!/\b(name|supply|ort|angebot)\b/i.test(first)) {
      id = kindOf() === 'flow' && /route|strecke|lane|kante/i.test(file.name)
        ? 'routes'
        : kindOf() === 'flow' && (/place|ort|node/i.test(file.name) || DEMAND.test(begin))
          ? 'places' : 'costs';
    }
    let text = `(${file.name}, ${grouped(String(bytes.length))} bytes)`;
    try {
      const { text: whole } = isDimacs && bytes.length >= FIELD
        ? { text } : textOf(file.name, bytes, $('encoding').value || null);
      if (bytes.length < FIELD) text = whole;
    } catch (error) {
      showTrouble(error);
      continue;
    }
    chooseKind({ dimacs: 'text', costs: 'pairs', groups: 'pairs' }[id] || 'flow');
    put(id, text, { name: file.name, bytes });
  }
}

/** @type {(number: number) => void} */
function example(number) {
  const { kind, texts, heads, unused, short, ranges, crossing, each } = examples()[number];
  chooseKind(kind);
  const ids = kind === 'flow' ? ['places', 'routes'] : ['costs', 'groups'];
  ids.forEach((id, k) => put(id, texts[k] || ''));
  $('heads').value = heads;
  $('unused').checked = unused;
  $('short').checked = short;
  $('ranges').checked = ranges;
  $('crossing').checked = crossing;
  $('each').value = each;
  $('penalty').disabled = !short;
  const others = 'title unit currency penalty decimal encoding filldown'.split(' ');
  for (const id of others) $(id).value = '';
}

// ---- Running

/** @param {Change | null} [change] */
async function go(change = null) {
  if (busy) return solver.stop();
  const kind = kindOf(), before = change && plan, begun = performance.now();
  busy = true;
  document.body.classList.add('busy');
  $('go').textContent = 'Stop';
  document.body.dataset.status = 'running';
  let status;
  try {
    const asked = choices();
    /** @type {Record<string, () => Promise<Run>>} */
    const run = {
      flow: () => runFlow(solver, [sourceOf('places'), sourceOf('routes')], asked),
      pairs: () => runPairs(solver, pairFields().map(sourceOf), asked),
      text: () => {
        const source = sourceOf('dimacs');
        return runText(solver, source.bytes || new TextEncoder().encode(source.text), asked);
      },
    };
    const shown = { caption: captionOf(kind), ...await run[kind]() };
    plan = shown.plan || before;
    show(shown, change, before);
    status = shown.result.status;
  } catch (error) {
    status = error instanceof BadTable ? 'unread' : error.status || 'failed';
    showTrouble(error, change);
  }
  busy = false;
  document.body.classList.remove('busy');
  $('go').textContent = 'Find the plan';
  Object.assign(document.body.dataset, { status, took: (performance.now() - begun).toFixed(0) });
}

// This function rewrites and solves the table of a changed cell.
/** @type {import('./grid.js').Changing} */
function changed({ from: table, field }, k, head, text) {
  const { cells } = table.rows[k];
  const place = table.heads.indexOf(head);
  const cell = (/** @type {string} */ name) => cells[table.heads.indexOf(name)];
  const old = Object.fromEntries(
    ['places', 'routes'].map((id) => [id, { text: $(id).value, file: files[id] }])
  );
  const where = field === 'places' ? cell('name') : `${cell('from')} -> ${cell('to')}`;
  const now = text.trim();
  const what = `${head} of ${where}: ${cells[place] || 'empty'} is now ${now || 'empty'}.`;
  while (cells.length <= place) cells.push('');
  cells[place] = now;
  put(
    field,
    csvOf({
      heads: table.titles,
      rows: table.rows.map((row) => row.cells),
      like: { ...table, mark: false },
      figures: [],
    }),
    files[field] && { name: files[field].name }
  );
  const undo = () => {
    for (const [id, { text: was, file }] of Object.entries(old)) put(id, was, file);
    go({ what: `Taken back: ${what}`, undo: null });
  };
  go({ what, undo });
}

// ---- Results

/** @type {(...parts: (Part | Part[] | false | null)[]) => void} */
function replaceResult(...parts) {
  const active = /** @type {HTMLElement | null} */ (document.activeElement);
  const focused = active && active.dataset ? active.dataset.key : null;
  $('result').replaceChildren(.../** @type {Part[]} */ (parts.flat().filter(Boolean)));
  $('result').hidden = false;
  for (const grid of grids) grid.settle();
  const field = focused && fields('input.cell').find((it) => it.dataset.key === focused);
  if (field) field.focus({ preventScroll: true });
}

/** @type {(text: string, className?: string | null) => HTMLElement} */
const paragraph = (text, className = null) =>
  el('p', className ? { class: className } : {}, text);

// This function says why the answer can be believed.
/** @type {(result: Result) => string} */
const sealOf = ({ verdict }) => (
  verdict
    ? `✓ ${verdict}: the proved checker in this page says so about this answer.`
    : '✓ Proved code in this page found this answer: all of it is proved, from the text of the '
      + 'tables to its last figure.'
);

// This function shows the title, the headline, the date, the tables, and why the answer can be
// believed.
/** @type {(shown: CaptionedRun) => Part[]} */
const headOf = ({ isPlan, headline, caption, result }) => [
  el(
    'h2',
    { class: isPlan ? null : 'none', role: 'status', tabindex: -1 },
    caption.title ? [caption.title, el('br')] : '',
    headline(caption)
  ),
  el('p', { class: 'soft' }, caption.source),
  el('p', { class: 'soft', id: 'seal' }, sealOf(result)),
];

/** @type {(shown: CaptionedRun, change: Change | null, before: FlowPlan | null) => void} */
function show(shown, change, before) {
  const { result, mark, caption } = shown;
  const lead = el('div');
  const viewing = () => lead.replaceChildren(...shown.lead().map((line) => paragraph(line)));
  const settings = { mark, change: changed, viewing };
  const drawn = shown.scenes ? svgsOf(shown.scenes(caption)) : [];
  document.title = caption.title || 'Least-cost plans';
  const differs = change && changeParts(shown, change, before);
  grids = [];
  /** @type {Making} */
  const made = (sheets) => {
    const found = sheets.map((sheet) => new Grid(sheet, settings));
    grids.push(...found);
    return found.map((grid) => grid.element);
  };
  const ms = (/** @type {number} */ time) => `${time < 10 ? time.toFixed(1) : time.toFixed(0)} ms`;
  replaceResult(
    headOf(shown),
    lead,
    differs && el('div', { class: 'changed' }, differs.parts, made(differs.sheets)),
    shown.facts.length
      ? el(
        'ul',
        { class: 'facts' },
        shown.facts.map(([value, what, isAmount]) => {
          const figure = grouped(String(value), mark, isAmount ? caption.unit : '');
          return el('li', {}, el('b', {}, figure), what);
        })
      )
      : null,
    shown.findings.map(findingOf),
    drawn.length
      ? [el('h2', {}, drawn.length > 1 ? 'Pictures' : 'Picture'), ...drawn.map(pictureOf)]
      : null,
    made(shown.sheets),
    shown.side && besideSection(shown, made),
    saves(shown, drawn),
    el(
      'p',
      { class: 'soft small' },
      `Solved in ${ms(result.solving)}, `
        + `${result.verdict ? `checked in ${ms(result.judging)}, ` : ''}`
        + `${(result.peak / 2 ** 20).toFixed(1)} MB at most.`
    )
  );
  viewing();
}

/** @type {(finding: Finding) => HTMLElement} */
function findingOf({ figures, sentence, cure }) {
  const numbers = figures.flatMap(([words, number], k) => [
    k ? ' · ' : '',
    el('b', words === 'short by' ? { class: 'short' } : {}, `${words} ${number}`),
  ]);
  return el(
    'div',
    { class: 'finding' },
    el('p', {}, numbers),
    paragraph(sentence),
    cure ? paragraph(cure, 'soft') : ''
  );
}

// This function shows what a change did to the previous plan.
/** @type {(shown: Run, change: Change, before: FlowPlan | null) => Changes} */
function changeParts(shown, { what, undo }, before) {
  const back = undo ? el('button', { type: 'button', onclick: undo }, 'Take it back') : '';
  if (!shown.plan || !before) {
    return {
      parts: [
        paragraph(what),
        before ? paragraph(`Before, a plan cost ${before.problem.said.total(before.cost)}.`) : '',
        back,
      ],
      sheets: [],
    };
  }
  const { text, sheets } = changesShown(before, shown.plan);
  return { parts: [paragraph(what), paragraph(text), back], sheets };
}

// This function returns the section that keeps plans, and that puts those that were kept beside the
// present one.
/** @type {(shown: CaptionedRun, made: Making) => HTMLElement} */
function besideSection(shown, made) {
  const isHere = (/** @type {{ side: Side }} */ { side }) => side.isFlow === Boolean(shown.plan);
  const others = beside.filter(isHere);
  const told = el(
    'p',
    { class: 'soft', role: 'status' },
    'Keep this plan, change the tables, and find another: the page then puts both side by side.'
  );
  const keep = el('button', {
    type: 'button',
    onclick: () => {
      const label = labelOf(shown.caption.title);
      beside.push({ label, side: shown.side() });
      told.textContent = `Kept as “${label}”. The next plan stands beside it.`;
      keep.disabled = true;
    },
  }, 'Keep this plan');
  const section = el('section', {}, el('h2', {}, 'Plans side by side'));
  if (others.length) {
    const found = new Comparison([...others, { label: 'now', side: shown.side() }]);
    const forget = el('button', {
      type: 'button',
      onclick: () => {
        beside = beside.filter((one) => !isHere(one));
        section.replaceWith(besideSection(shown, made));
      },
    }, 'Forget the kept plans');
    section.append(...found.lines().map((line) => paragraph(line)), ...made(found.sheets()));
    section.append(el('div', { class: 'tools' }, forget, saver(
      'compare.csv', () => `\ufeff${csvOf(found.table(), found.mark)}`, 'text/csv'
    )));
  }
  section.append(told, el('div', { class: 'tools' }, keep));
  return section;
}

// This function returns the label of a plan that is kept: its title, or its number.
/** @type {(title: string) => string} */
function labelOf(title) {
  const labels = beside.map(({ label }) => label);
  for (let number = beside.length + 1; ; number++) {
    const label = title && !labels.includes(title) ? title : `${title || 'plan'} ${number}`;
    if (!labels.includes(label)) return label;
  }
}

/** @type {(shown: Run, drawn: string[]) => HTMLElement} */
function saves({ result, instance, mark, tables }, drawn) {
  const answer = instance
    ? [saver(instance.name, () => instance.text), saver('answer.ans', () => result.bytes)]
    : [saver('answer.csv', () => result.bytes, 'text/csv')];
  return el(
    'section',
    { class: 'saves' },
    el('h2', {}, 'To save'),
    el(
      'p',
      { class: 'soft' },
      instance
        ? `mcfcheck ${instance.name} answer.ans checks this answer on another machine.`
        : 'The file answer.csv has the answer as proved code wrote it, with the tables.'
    ),
    el(
      'div',
      { class: 'tools' },
      answer,
      tables().map((table) =>
        saver(
          `${table.name}.csv`,
          () => csvOf({ ...table, like: { ...table.like, mark: true } }, mark),
          'text/csv'
        )
      ),
      drawn.map((picture, k) => saver(
        drawn.length > 1 ? `plan-${k + 1}.svg` : 'plan.svg', () => picture, 'image/svg+xml'
      )),
      el('button', { type: 'button', onclick: () => print() }, 'Print')
    )
  );
}

/**
 * @param {any} error what was thrown
 * @param {Change | null} [change]
 */
function showTrouble(error, change) {
  const lines = error instanceof BadTable
    ? error.lines
    : [
      WHY[error.status] || 'The run failed.',
      ...(error.message && error.message !== error.status ? [error.message] : []),
    ];
  const back = change && change.undo
    ? el('button', { type: 'button', onclick: change.undo }, 'Take it back')
    : null;
  grids = [];
  replaceResult(
    el(
      'h2',
      { class: 'none', role: 'status', tabindex: -1 },
      error instanceof BadTable ? 'The tables can’t be read as meant' : 'No answer'
    ),
    change && paragraph(change.what),
    lines.map((line) => el('div', { class: 'finding' }, paragraph(line))),
    back
  );
  if (!(error instanceof BadTable) && !WHY[error.status]) console.error(error);
}

// ---- Start

function begin() {
  examples().forEach(({ name }, k) => $('example').append(el('option', { value: k }, name)));
  $('example').onchange = () => {
    if ($('example').value !== '') { example(Number($('example').value)); go(); }
  };
  for (const radio of fields('input[name=kind]')) radio.onchange = () => chooseKind(radio.value);
  $('short').onchange = () => { $('penalty').disabled = !$('short').checked; };
  for (const id of Object.keys(FIELDS)) {
    $(id).oninput = () => { files[id] = files[id] && { name: files[id].name }; };
  }
  $('input').onsubmit = (event) => { event.preventDefault(); go(); };
  $('files').onchange = () => take($('files').files);
  addEventListener('dragover', (event) => {
    event.preventDefault();
    document.body.classList.add('over');
  });
  addEventListener('dragleave', (event) => {
    if (!event.relatedTarget) document.body.classList.remove('over');
  });
  addEventListener('drop', (event) => {
    event.preventDefault();
    document.body.classList.remove('over');
    take(event.dataTransfer.files);
  });
  addEventListener('keydown', (event) => {
    if (event.key === 'Enter' && (event.ctrlKey || event.metaKey) && !busy) go();
  });
  addEventListener('beforeprint', () => grids.forEach((grid) => grid.fill(true, true)));
  addEventListener('afterprint', () => grids.forEach((grid) => grid.settle()));
  example(examples().findIndex(({ name }) => name === 'transport'));
  try {
    solver = new Client($('worker').textContent, $('module').textContent.trim());
    solver.ready.then(
      () => { document.body.dataset.ready = 'yes'; },
      () => { $('support').hidden = false; }
    );
  } catch { $('support').hidden = false; }
}

begin();
