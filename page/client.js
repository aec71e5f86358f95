// @ts-check
// The page's access to the solver. It calls a worker, and ends the worker to stop a run.
import { NoAnswer } from './solving.js';

/** @typedef {{ resolve(result: any): void, reject(error: Error): void }} Waiting */

/** @type {(text: string | Uint8Array) => Uint8Array} */
const bytesOf = (text) => (
  typeof text === 'string' ? new TextEncoder().encode(text) : text.slice()
);

// This function adds the answer of a result as text.
/** @type {(result: Judged) => Result} */
const withText = (result) => ({
  ...result,
  bytes: result.answer,
  answer: result.answer && new TextDecoder().decode(result.answer),
});

export class Client {
  // `source` is the source of the worker; `module` is the module in gzip and base64.
  /**
   * @param {string} source
   * @param {string} module
   */
  constructor(source, module) {
    this.source = source;
    this.module = module;
    /** @type {Map<number, Waiting>} */
    this.waiting = new Map();
    this.count = 0;
    this.wake();
  }

  wake() {
    this.worker = new Worker(
      URL.createObjectURL(new Blob([this.source], { type: 'text/javascript' }))
    );
    this.worker.onerror = (event) => this.end(new NoAnswer('failed', event.message));
    this.worker.onmessage = ({ data: { id, result } }) => {
      const { resolve, reject } = this.waiting.get(id);
      this.waiting.delete(id);
      if (result.status === 'memory' || result.status === 'failed') {
        reject(new NoAnswer(result.status, result.why));
      } else resolve(result);
    };
    this.ready = this.ask({ module: this.module });
    this.ready.catch(() => {});
  }

  /** @type {(message: object, ...moved: Transferable[]) => Promise<any>} */
  ask(message, ...moved) {
    const id = ++this.count;
    return new Promise((resolve, reject) => {
      this.waiting.set(id, { resolve, reject });
      this.worker.postMessage({ ...message, id }, moved);
    });
  }

  /** @type {(error: Error) => void} */
  end(error) {
    const waiting = [...this.waiting.values()];
    this.waiting.clear();
    for (const { reject } of waiting) reject(error);
  }

  stop() {
    this.worker.terminate();
    this.end(new NoAnswer('stopped'));
    this.wake();
  }

  // This method takes a text or its bytes. The result has the answer as text and as bytes.
  /** @type {(text: string | Uint8Array, engine: string) => Promise<Result>} */
  async solve(text, engine) {
    const bytes = bytesOf(text);
    return withText(await this.ask({ bytes, engine }, bytes.buffer));
  }

  // This method plans the texts of tables, as bytes.
  /** @type {(texts: Uint8Array[], options: TableOptions) => Promise<Result>} */
  async plan(texts, options) {
    return withText(await this.ask({ texts, options }, ...texts.map(({ buffer }) => buffer)));
  }

  /** @type {(text: string | Uint8Array, answer: string | Uint8Array) => Promise<Verdict>} */
  async check(text, answer) { return this.ask({ bytes: bytesOf(text), answer: bytesOf(answer) }); }
}
