// This file runs the tests of the page that only need node (16 or later): node page/test.mjs [NAME
// ..]. Each test_NAME.mjs beside this file says what it tried. The status is 1 if a test failed.
import fs from 'node:fs';
import path from 'node:path';
import { fileURLToPath } from 'node:url';

const here = path.dirname(fileURLToPath(import.meta.url));
const names = process.argv.length > 2 ? process.argv.slice(2)
  : fs.readdirSync(here).map((name) => /^test_(\w+)\.mjs$/.exec(name)?.[1]).filter(Boolean);
let wrong = 0;
for (const name of names.sort()) {
  let tried = 0, skipped = '';
  const bad = [];
  const expect = (ok, what) => { tried++; if (!ok) bad.push(what); };
  const { default: test } = await import(`./test_${name}.mjs`);
  try {
    skipped = await test(expect) || '';
  } catch (error) { expect(false, error.stack); }
  for (const what of bad.slice(0, 20)) console.log(`page: ${name}: WRONG: ${what}`);
  console.log(`page: ${name}: ${tried} tried, ${bad.length} wrong${skipped ? `; ${skipped}` : ''}`);
  wrong += bad.length;
}
process.exit(wrong ? 1 : 0);
