// This file tests what the module answers to each example, in both forms and by each engine, and
// what it says about changed answers.
import fs from 'node:fs';
import os from 'node:os';
import path from 'node:path';
import { spawnSync } from 'node:child_process';
import { fileURLToPath } from 'node:url';
import { Instance, judged } from './module.js';

const top = path.join(path.dirname(fileURLToPath(import.meta.url)), '..');
const examples = path.join(top, 'examples');
const programs = process.env.MCF_BIN ?? path.join(top, 'bin');
const mcfcheck = path.join(programs, 'mcfcheck');
// mcfcheck judges only every 16th changed byte of an answer, since each run is a process.
const EVERY = 16;

export function loaded() {
  const module = new WebAssembly.Module(fs.readFileSync(path.join(top, 'bin', 'mcf.wasm')));
  if (WebAssembly.Module.imports(module).length) {
    throw Error('the module asks its host for something');
  }
  return module;
}

export default function test(expect) {
  const module = loaded();
  const scratch = fs.mkdtempSync(path.join(os.tmpdir(), 'mcf-page-'));
  const checks = fs.existsSync(mcfcheck);
  for (const name of fs.readdirSync(examples).filter((file) => /\.(min|asn)$/.test(file)).sort()) {
    const file = path.join(examples, name);
    const bytes = fs.readFileSync(file);
    const stem = file.replace(/\.\w+$/, '');
    const statuses = { ans: 1, two: 2 };
    for (const end of Object
      .keys(statuses)
      .filter((ending) => fs.existsSync(`${stem}.${ending}`))) {
      const wanted = fs.readFileSync(`${stem}.${end}`);
      const instance = new Instance(module);
      const text = instance.lend(bytes);
      const found = instance.solve(text, 'auto', statuses[end]);
      expect(
        Buffer.from(instance.bytes(found.at, found.size)).equals(wanted),
        `${name}: form ${statuses[end]} has another answer`
      );
      expect(
        instance.check(text, instance.lend(wanted)).accepted,
        `${name}: the answer isn't accepted`
      );
      const short = instance.solve(text, 'auto', statuses[end], 3);
      expect(
        short.status === 'room' && short.size === wanted.length,
        `${name}: three bytes are too few`
      );
      changed(module, bytes, wanted, (bad, verdict, k) => {
        if (checks && k % EVERY === 0) {
          expect(
            verdict.line === said(scratch, file, bad),
            `${name}: byte ${k} changed: ${verdict.line}`
          );
        }
        if (verdict.accepted) {
          expect(mayPass(wanted, bad, k), `${name}: byte ${k} changed, and it passes`);
        } else expect(verdict.line.startsWith('rejected '), `${name}: ${verdict.line}`);
      });
    }
    for (const engine of ['cancel', 'simplex', 'scaling', 'sap', 'fast']) {
      const instance = new Instance(module);
      const text = instance.lend(bytes);
      const found = instance.solve(text, engine);
      expect(instance.check(text, found).accepted, `${name}: ${engine}`);
    }
  }
  plans(expect, module);
  rosters(expect, module);
  spoilt(expect, module, fs.readFileSync(path.join(examples, 'transport.min')));
  engines(expect, module);
  let refused = false;
  try { new Instance(module).room(2 ** 40); } catch (error) {
    refused = error instanceof RangeError;
  }
  expect(refused, 'a room that no memory has');
  fs.rmSync(scratch, { recursive: true });
  return checks ? '' : `not compared with mcfcheck, which isn't built in ${programs}`;
}

// This test compares the module's answers to tables with those of mcfplan, byte for byte.
function plans(expect, module) {
  const mcfplan = path.join(programs, 'mcfplan'), folder = path.join(examples, 'plans');
  for (const name of fs.readdirSync(folder)) {
    const files = ['places.csv', 'routes.csv'].map((file) => path.join(folder, name, file));
    if (!files.every((file) => fs.existsSync(file))) continue;
    for (const short of [false, true]) {
      const instance = new Instance(module);
      const [places, routes] = files.map((file) => instance.lend(fs.readFileSync(file)));
      const found = instance.plan(places, routes, { short, penalty: short ? '1000' : '' });
      const words = short ? ['--short', 'allow', '--penalty', '1000'] : [];
      const wanted = spawnSync(mcfplan, ['flow', ...words, ...files]);
      expect(
        Buffer.from(instance.bytes(found.at, found.size)).equals(wanted.stdout),
        `${name}: mcfplan answers otherwise`
      );
      expect(
        ['flow', 'blocked', 'refused'][wanted.status] === found.status,
        `${name}: status ${found.status}`
      );
    }
  }
}

// This test does the same for tables of persons and things, with their groups if they have some.
function rosters(expect, module) {
  const mcfplan = path.join(programs, 'mcfplan'), folder = path.join(examples, 'plans');
  for (const name of fs.readdirSync(folder)) {
    const [costs, groups] = ['costs.csv', 'groups.csv'].map((file) => path.join(folder, name, file));
    if (!fs.existsSync(costs)) continue;
    const hasGroups = fs.existsSync(groups);
    for (const each of ['', 'both']) {
      const instance = new Instance(module);
      const lent = [costs, groups].map((file) =>
        instance.lend(fs.existsSync(file) ? fs.readFileSync(file) : new Uint8Array(0))
      );
      const found = instance.pair(lent[0], lent[1], { each, maximise: each === 'both' });
      const words = [
        ...(each ? ['--each', each, '--maximise', 'yes'] : []),
        ...(hasGroups ? ['--groups', groups] : []),
      ];
      const wanted = spawnSync(mcfplan, ['pairs', ...words, costs]);
      expect(
        Buffer.from(instance.bytes(found.at, found.size)).equals(wanted.stdout),
        `${name}: mcfplan answers otherwise`
      );
      expect(
        ['flow', 'blocked', 'refused'][wanted.status] === found.status,
        `${name}: status ${found.status}`
      );
    }
  }
}

// This function changes each byte of an answer, one at a time, and judges the result.
function changed(module, bytes, wanted, judge) {
  const instance = new Instance(module);
  const text = instance.lend(bytes);
  const answer = instance.lend(wanted);
  for (let k = 0; k < wanted.length; k++) {
    const bad = Buffer.from(wanted);
    bad[k] = bad[k] === 49 ? 50 : 49;
    instance.bytes(answer.at, bad.length).set(bad);
    judge(bad, instance.check(text, answer), k);
  }
}

// This function says whether a changed answer may still be right: other prices may prove the same
// flow, or another set may block.
function mayPass(wanted, bad, k) {
  const line = bad.subarray(0, k + 1).toString('latin1').split('\n').pop();
  return line.startsWith('y') || line.startsWith('x') || wanted[k] === 10;
}

function said(scratch, file, answer) {
  const other = path.join(scratch, 'answer');
  fs.writeFileSync(other, answer);
  return spawnSync(mcfcheck, [file, other]).stdout.toString().trim();
}

// This test checks which engine runs, by the text and by the caller's choice.
function engines(expect, module) {
  const { solve } = Instance.prototype, asked = [];
  Instance.prototype.solve = function heard(text, engine, ...words) {
    asked.push(engine);
    return solve.call(this, text, engine, ...words);
  };
  for (const [text, engine, wanted] of [
    ['p min 3 0\n', 'auto', 'fast'],
    ['c p asn 9 0\n p  min\t16385 0\n', 'auto', 'fast'],
    ['p min 16385 0\n', 'scaling', 'scaling'],
    ['c p min 9 0\np asn 40000 0\n', 'auto', 'auto'],
  ]) {
    const { status } = judged(module, Buffer.from(text), engine);
    expect(
      asked.pop() === wanted && (status === 'flow' || text.includes('asn')),
      `${text.trim()} by ${engine}: another engine than ${wanted}, or ${status}`
    );
  }
  Instance.prototype.solve = solve;
}

// This test checks that the page shows nothing of a solver's wrong answer.
function spoilt(expect, module, bytes) {
  const { solve } = Instance.prototype;
  const ways = {
    'another cost': (instance, found) => {
      instance.bytes(found.at, found.size)[instance.bytes(found.at, found.size).indexOf(115) + 2] ^=
        1;
      return found;
    },
    'a line less': (instance, found) => ({ ...found, size: found.size - 6 }),
    'another status': (instance, found) => ({ ...found, status: 'blocked' }),
    'no answer': (instance, found) => ({ ...found, size: 0 }),
  };
  for (const [name, change] of Object.entries(ways)) {
    Instance.prototype.solve = function wrongly(...words) {
      return change(this, solve.apply(this, words));
    };
    const result = judged(module, bytes, 'auto');
    expect(
      result.status === 'rejected' && !result.answer,
      `${name}: ${result.status}, ${result.verdict}`
    );
  }
  Instance.prototype.solve = solve;
  expect(judged(module, bytes, 'auto').status === 'flow', 'the answer as it is');
}
