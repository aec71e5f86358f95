// @ts-check
// This file calls the proved module for tables: two of places and routes, or one of persons and
// things, and perhaps one of groups.
import { Instance } from './module.js';

// This function plans tables, given as bytes. The answer is the text of a table.
/** @type {(module: WebAssembly.Module, texts: Uint8Array[], options: TableOptions) => Planned} */
export function planned(module, texts, options) {
  const instance = new Instance(module), lent = texts.map((text) => instance.lend(text));
  const begun = performance.now();
  const found = 'each' in options
    ? instance.pair(lent[0], lent[1] || instance.lend(new Uint8Array(0)), options)
    : instance.plan(lent[0], lent[1], options);
  return {
    status: found.status,
    answer: instance.bytes(found.at, found.size).slice(),
    solving: performance.now() - begun,
    peak: Number(instance.exports.page_peak()),
  };
}
