// @ts-check
// The worker: it holds the compiled module, plans tables, and solves and judges texts.
import { accepts, judged } from './module.js';
import { planned } from './planned.js';

// tsc's DOM library only has the calls of a window, not those of a worker.
const worker = /** @type {any} */ (self);

/** @type {Promise<WebAssembly.Module>} */
let compiled;

/** @type {(text: string) => Promise<WebAssembly.Module>} */
async function unpack(text) {
  const packed = new Blob([Uint8Array.from(atob(text), (c) => c.charCodeAt(0))]).stream();
  return WebAssembly.compile(
    await new Response(packed.pipeThrough(new DecompressionStream('gzip'))).arrayBuffer()
  );
}

onmessage = async ({ data: { id, module, bytes, engine, answer, texts, options } }) => {
  try {
    if (module) {
      compiled = unpack(module);
      await compiled;
      postMessage({ id, result: {} });
      return;
    }
    if (answer) {
      postMessage({ id, result: accepts(await compiled, bytes, answer) });
      return;
    }
    const result = texts
      ? planned(await compiled, texts, options)
      : judged(await compiled, bytes, engine);
    worker.postMessage({ id, result }, result.answer ? [result.answer.buffer] : []);
  } catch (error) {
    postMessage({
      id,
      result: { status: error instanceof RangeError ? 'memory' : 'failed', why: String(error) },
    });
  }
};
