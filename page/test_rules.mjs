// This file runs the list of rules that mcf_plan's tests read, too: how tables are read, what is
// said about them, and what the page shows with units. It also checks that the page uses its own
// words.
import fs from 'node:fs';
import path from 'node:path';
import { fileURLToPath } from 'node:url';
import { asked, solverHere, told } from './test_plans.mjs';
import { runFlow, runPairs } from './running.js';
import { grouped } from './view.js';

const list = path.join(
  path.dirname(fileURLToPath(import.meta.url)),
  '..',
  'python',
  'tests',
  'rules.json'
);

// This function returns what the page shows of a rule's tables, in its own words.
async function shownOf(rule, solver, sources) {
  const choices = asked(rule.options ?? []), { caption } = choices;
  const run = 'costs' in rule
    ? runPairs(solver, sources, choices)
    : runFlow(solver, sources, choices);
  return run.then(
    ({ headline, lead, facts, findings, mark, scenes = () => [] }) => {
      const [{ heading, notes } = { heading: '', notes: {} }] = scenes(caption);
      const units = (isAmount) => (isAmount ? caption.unit : '');
      const boxes = facts.map(([value, what, isAmount]) =>
        `${grouped(String(value), mark, units(isAmount))} ${what}`
      );
      const found = findings.flatMap(Object.values);
      return [headline(caption), ...lead(), ...boxes, ...found, heading, ...Object.values(notes), '']
        .join('\n');
    },
    (error) => error.lines.join('\n')
  );
}

export default async function test(expect) {
  const solver = solverHere();
  for (const rule of JSON.parse(fs.readFileSync(list, 'utf8'))) {
    const sources = ['places', 'routes', 'costs', 'groups']
      .filter((name) => name in rule)
      .map((name) => ({
        name: `${name}.csv`,
        bytes: Buffer.from(
          rule[name].latin1 ?? rule[name],
          'latin1' in Object(rule[name]) ? 'latin1' : 'utf8'
        ),
      }));
    const { said, status } = await told(
      'costs' in rule ? 'pairs' : 'flow',
      solver,
      sources,
      asked(rule.options ?? [])
    );
    expect(status === rule.status, `status ${status}, and not ${rule.status}: ${said}`);
    for (const text of rule.says) expect(said.includes(text), `it says\n${said}and not ${text}`);
    const own = await shownOf(rule, solver, sources);
    for (const text of rule.shows ?? []) {
      expect(own.includes(text), `it shows\n${own}and not ${text}`);
    }
    expect(!/--\w|mcfcheck|\bman\b/.test(own), `these aren't words of the page: ${own}`);
  }
}
