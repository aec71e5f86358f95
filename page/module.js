// @ts-check
// This file calls the proved module. Each run has its own instance, so that all memory is freed and
// no state survives a trap. An instance imports nothing. Texts are bytes.

/** @type {Status[]} */
const STATUS = ['flow', 'blocked', 'refused', 'memory', 'room', 'choice'];
const KINDS = [
  'accepted flow', 'accepted blocked', 'accepted refusal', 'rejected shape', 'rejected kind',
  'rejected refusal', 'rejected arc', 'rejected node', 'rejected price', 'rejected cost',
  'rejected set',
];
const CODES = [
  '', 'kind', 'fields', 'problem', 'number', 'second-p', 'before-p', 'size', 'node', 'late-n',
  'twice', 'supply', 'bound', 'order', 'cost', 'extra', 'side', 'total', 'no-p', 'missing',
];
// The mark before decimals: the one that the tables show, a point, or a comma.
const MARKS = ['', '.', ','];
// Who gets just one: whoever the table says, each person, each thing, or both.
const EACH = ['', 'who', 'what', 'both'];
const ENGINES = ['auto', 'cancel', 'simplex', 'scaling', 'sap', 'fast'];

// This function chooses the engine if the caller doesn't: `fast` for a flow problem whose problem
// line is near the beginning of the text.
/** @type {(bytes: Uint8Array) => string} */
function usual(bytes) {
  const line = /^[ \t]*p[ \t]+min[ \t]/m.exec(
    new TextDecoder().decode(bytes.subarray(0, 4096))
  );
  return line ? 'fast' : 'auto';
}

// An instance, with methods to copy bytes to its memory and to read from it.
export class Instance {
  /** @param {WebAssembly.Module} module */
  constructor(module) {
    const { exports } = new WebAssembly.Instance(module);
    this.exports = /** @type {Exports} */ (/** @type {unknown} */ (exports));
    this.used = this.room(8);
  }

  /** @type {(size: number) => bigint} */
  room(size) {
    const at = this.exports.page_alloc(BigInt(size));
    if (!at) throw new RangeError('memory');
    return at;
  }

  /** @type {(at: bigint, size: number) => Uint8Array} */
  bytes(at, size) { return new Uint8Array(this.exports.memory.buffer, Number(at), size); }

  view() { return new DataView(this.exports.memory.buffer); }

  /** @type {(text: Uint8Array) => Lent} */
  lend(text) {
    const at = this.room(Math.max(text.byteLength, 1));
    this.bytes(at, text.byteLength).set(text);
    return { at, size: text.byteLength };
  }

  // This method solves a text that was lent. It returns its status and the location of the answer.
  // If the room is too short, it tries again with enough room.
  /**
   * @param {Lent} text
   * @returns {{ status: Status } & Lent}
   */
  solve(text, engine = 'auto', form = 2, size = 0) {
    const choice = this.numbers([ENGINES.indexOf(engine), 0, 0, form, 0]);
    return this.written(size, text.size + 1024, (at, room) =>
      this.exports.mcf_solve(text.at, BigInt(text.size), choice, at, BigInt(room), this.used)
    );
  }

  // This method plans the flow of two tables that were lent, and returns the status and the
  // location of the answer, which is the text of a table.
  /**
   * @param {Lent} places
   * @param {Lent} routes
   * @param {PlanOptions} options
   * @returns {{ status: Status } & Lent}
   */
  plan(places, routes, options = {}) {
    const { decimal = '', unused = false, short = false, ranges = false, penalty = '' } = options;
    const choices = [unused, short, ranges].map(Number);
    const asked = this.options([MARKS.indexOf(decimal), ...choices], [
      this.lend(new TextEncoder().encode(penalty)),
      this.lines(options.fillDown)
    ]);
    return this.written(0, 4096 + 12 * (places.size + routes.size), (at, room) =>
      this.exports.mcf_plan_flow(
        places.at,
        BigInt(places.size),
        routes.at,
        BigInt(routes.size),
        asked,
        at,
        BigInt(room),
        this.used
      )
    );
  }

  // This method pairs persons with things by a table and groups that were lent, and returns the
  // status and the location of the answer, which is the text of a table. An empty text has no
  // groups.
  /**
   * @param {Lent} costs
   * @param {Lent} groups
   * @param {PairOptions} options
   * @returns {{ status: Status } & Lent}
   */
  pair(costs, groups, options = {}) {
    const { decimal = '', each = '', maximise = false, crossing = '' } = options;
    const choices = [EACH.indexOf(each || ''), Number(maximise), Number(crossing === 'check')];
    const asked = this.options([MARKS.indexOf(decimal), ...choices], [
      groups,
      this.lines(options.fillDown)
    ]);
    return this.written(0, 4096 + 12 * (costs.size + groups.size), (at, room) =>
      this.exports.mcf_plan_pairs(
        costs.at,
        BigInt(costs.size),
        asked,
        at,
        BigInt(room),
        this.used
      )
    );
  }

  // This method lends a text with a head in each line.
  /** @type {(heads?: string[]) => Lent} */
  lines(heads = []) {
    return this.lend(new TextEncoder().encode(heads.join('\n')));
  }

  // This method returns the address of options: four numbers of 32 bits, and texts that were lent.
  /** @type {(numbers: number[], texts: Lent[]) => bigint} */
  options(numbers, texts) {
    const asked = this.numbers(numbers, 16 + 16 * texts.length);
    texts.forEach(({ at, size }, k) => {
      this.view().setBigUint64(Number(asked) + 16 + 16 * k, at, true);
      this.view().setBigUint64(Number(asked) + 24 + 16 * k, BigInt(size), true);
    });
    return asked;
  }

  // This method returns the address of numbers of 32 bits.
  /** @type {(numbers: number[], size?: number) => bigint} */
  numbers(numbers, size = 4 * numbers.length) {
    const at = this.room(size);
    numbers.forEach((number, k) => this.view().setUint32(Number(at) + 4 * k, number, true));
    return at;
  }

  // This method makes a call that writes a text to a room. If no size is given for the room, and
  // the usual one is too short, it calls again with enough room.
  /**
   * @param {number} size
   * @param {number} usual
   * @param {(at: bigint, room: number) => number} call
   * @returns {{ status: Status } & Lent}
   */
  written(size, usual, call) {
    const room = size || usual, at = this.room(room), status = STATUS[call(at, room)];
    const used = Number(this.view().getBigUint64(Number(this.used), true));
    if (status === 'room' && !size) return this.written(used, used, call);
    return { status, at, size: used };
  }

  // This method judges an answer that was lent. It returns whether it is accepted and the line that
  // mcfcheck prints, or null if memory runs out.
  /** @type {(text: Lent, answer: Lent) => Verdict | null} */
  check(text, answer) {
    const told = this.room(32);
    const status = this.exports.mcf_check(
      text.at,
      BigInt(text.size),
      answer.at,
      BigInt(answer.size),
      told
    );
    if (status === 3) return null;
    const view = this.view();
    const at = Number(told);
    const kind = view.getUint32(at, true);
    const negative = view.getUint32(at + 8, true);
    const size = (view.getBigUint64(at + 24, true) << 64n) + view.getBigUint64(at + 16, true);
    const words = KINDS[kind] + ([4, 5, 9, 10].includes(kind) ? '' : ` ${negative ? -size : size}`);
    return {
      accepted: status === 0,
      line: words + (kind === 2 ? ` ${CODES[view.getUint32(at + 4, true)]}` : ''),
    };
  }
}

// This function solves a text and has the answer judged before it returns it. If the status is
// flow, blocked or refused, the answer was accepted.
/** @type {(module: WebAssembly.Module, bytes: Uint8Array, engine: string) => Judged} */
export function judged(module, bytes, engine) {
  const instance = new Instance(module), text = instance.lend(bytes), begun = performance.now();
  const found = instance.solve(text, engine === 'auto' ? usual(bytes) : engine);
  const solved = performance.now();
  if (STATUS.indexOf(found.status) > 2) return { status: found.status };
  const verdict = instance.check(text, found);
  if (!verdict) return { status: 'memory' };
  if (!verdict.line.startsWith(`${KINDS[STATUS.indexOf(found.status)]} `)) {
    return { status: 'rejected', verdict: verdict.line };
  }
  return {
    status: found.status,
    verdict: verdict.line,
    answer: instance.bytes(found.at, found.size).slice(),
    solving: solved - begun,
    judging: performance.now() - solved,
    peak: Number(instance.exports.page_peak()),
  };
}

// This function says whether an answer from elsewhere is accepted.
/**
 * @param {WebAssembly.Module} module
 * @param {Uint8Array} bytes
 * @param {Uint8Array} answer
 * @returns {Verdict}
 */
export function accepts(module, bytes, answer) {
  const instance = new Instance(module);
  const verdict = instance.check(instance.lend(bytes), instance.lend(answer));
  if (!verdict) throw new RangeError('memory');
  return verdict;
}
