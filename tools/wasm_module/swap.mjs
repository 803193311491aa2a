// @ts-check
/**
 * The library of swap_party.h in a browser or in Node: what a wallet asks, and what the program
 * `swap` answers, by the module swap.wasm beside this file. Nothing is kept between calls.
 *
 *     import { Swap } from "./swap.mjs";
 *     const swap = await Swap.of(await readFile("swap.wasm"));
 *     const { status, text } = swap.answer(["run"], job);
 *
 * A text goes in as a string or as bytes. Statuses are those of the header: DONE, WARNED and REFUSED
 * come with a text. Before a call returns, what it copied into the module is overwritten; what the
 * caller and the engine hold isn't. An instance that trapped is dropped, and so is one whose memory
 * a call has made large: the next call gets a fresh one.
 *
 * @typedef {string | Uint8Array} Text
 * @typedef {{ status: number, bytes: Uint8Array, text: string }} Said
 * @typedef {{ memory: WebAssembly.Memory, swap_allocate: (size: number) => number,
 *   swap_free: (at: number) => void, swap_call: (...words: number[]) => number,
 *   swap_length: () => number, swap_version: () => number,
 *   swap_status_text: (status: number) => number, swap_limit: (which: number) => number,
 *   swap_heap_now: () => number, swap_heap_most: () => number }} Exports
 */

export const DONE = 0;
export const SHORT = 1;
export const WARNED = 2;
export const REFUSED = 3;
export const NO_MEMORY = 6;
export const TOO_LONG = 7;
export const WRONG_WORDS = 8;

const SEED_SIZE = 32;
// (most answers fit, and a longer one says how long it is)
const FIRST_ROOM = 1 << 16;
// (an engine never takes back a part of a memory)
const MOST_KEPT = 1 << 26;
const FUNCTIONS = ["keys", "deal", "terms", "next", "judge", "check", "answer"];
const NOTHING = new Uint8Array(0);

/** @param {Text} text */
const bytesOf = (text) => (typeof text === "string" ? new TextEncoder().encode(text) : text);

/** Blocks of the module's memory, which are overwritten and given back together. */
class Blocks {
  /** @param {Exports} exports */
  constructor(exports) {
    this.exports = exports;
    /** @type {[number, number][]} */
    this.taken = [];
  }

  /** @param {number} size */
  take(size) {
    const at = this.exports.swap_allocate(size) >>> 0;
    if (at !== 0) this.taken.push([at, size]);
    return at;
  }

  /**
   * Copies bytes into the module; the address is 0 where there is no room.
   * @param {Uint8Array} bytes
   */
  put(bytes) {
    const at = this.take(bytes.length);
    if (at !== 0) new Uint8Array(this.exports.memory.buffer).set(bytes, at);
    return at;
  }

  giveBack() {
    for (const [at, size] of this.taken.splice(0)) {
      new Uint8Array(this.exports.memory.buffer).fill(0, at, at + size);
      this.exports.swap_free(at);
    }
  }
}

/**
 * One call: its status, and a copy of the answer.
 * @param {Exports} exports @param {number} which @param {Uint8Array[]} given the texts, and last the seed
 * @returns {{ status: number, bytes: Uint8Array }}
 */
function called(exports, which, [first, second, seed]) {
  const blocks = new Blocks(exports);
  const at = [first, second, seed].map((it) => blocks.put(it));
  if (at.includes(0)) {
    blocks.giveBack();
    return { status: NO_MEMORY, bytes: NOTHING };
  }
  for (let room = FIRST_ROOM; ;) {
    const out = blocks.take(room);
    if (out === 0) break;
    const status = exports.swap_call(which, at[0], first.length, at[1], second.length, at[2], out, room);
    const length = exports.swap_length() >>> 0;
    if (status !== SHORT) {
      const bytes = new Uint8Array(exports.memory.buffer).slice(out, out + length);
      blocks.giveBack();
      return { status, bytes };
    }
    room = length;
  }
  blocks.giveBack();
  return { status: NO_MEMORY, bytes: NOTHING };
}

/**
 * A text of the module that a zero byte ends.
 * @param {Exports} exports @param {number} at
 */
function textAt(exports, at) {
  const memory = new Uint8Array(exports.memory.buffer);
  return new TextDecoder().decode(memory.slice(at, memory.indexOf(0, at)));
}

export class Swap {
  /** @type {WebAssembly.Module} */
  #module;
  /** @type {Exports | null} */
  #exports = null;

  /** @param {WebAssembly.Module} module */
  constructor(module) {
    this.#module = module;
  }

  /**
   * The module of these bytes.
   * @param {BufferSource} bytes
   */
  static async of(bytes) {
    const swap = new Swap(await WebAssembly.compile(bytes));
    await swap.refresh();
    return swap;
  }

  /** Takes a fresh instance: its memory is that of no call before. */
  async refresh() {
    const made = await WebAssembly.instantiate(this.#module, {});
    this.#exports = /** @type {Exports} */ (/** @type {unknown} */ (made.exports));
  }

  /** The module's instance, which is made where the one before it trapped. */
  #instance() {
    if (this.#exports === null) {
      const made = new WebAssembly.Instance(this.#module, {});
      this.#exports = /** @type {Exports} */ (/** @type {unknown} */ (made.exports));
    }
    return this.#exports;
  }

  /**
   * @param {string} name @param {Text} first @param {Text} second @param {Uint8Array} seed
   * @returns {Said}
   */
  #call(name, first, second = NOTHING, seed = NOTHING) {
    try {
      const given = [bytesOf(first), bytesOf(second), seed];
      const exports = this.#instance();
      const { status, bytes } = called(exports, FUNCTIONS.indexOf(name), given);
      if (exports.memory.buffer.byteLength > MOST_KEPT) this.#exports = null;
      return { status, bytes, text: new TextDecoder().decode(bytes) };
    } catch (why) {
      this.#exports = null;
      throw why;
    }
  }

  /** The library's version, and `proved` or `unproved`. */
  get version() {
    return textAt(this.#instance(), this.#instance().swap_version());
  }

  get isProved() {
    return this.version.endsWith(" proved");
  }

  /** @param {number} status */
  statusText(status) {
    return textAt(this.#instance(), this.#instance().swap_status_text(status));
  }

  /** @param {number} which */
  limit(which) {
    return this.#instance().swap_limit(which) >>> 0;
  }

  /** How many bytes the module's heap and its memory have. */
  get memory() {
    const { memory, swap_heap_now: now, swap_heap_most: most } = this.#instance();
    return { taken: now() >>> 0, most: most() >>> 0, whole: memory.buffer.byteLength };
  }

  /** @param {Uint8Array} seed */
  static #checked(seed) {
    if (seed.length !== SEED_SIZE) throw new RangeError(`a seed has ${SEED_SIZE} bytes`);
    return seed;
  }

  /**
   * The row of a party: what `party keys` writes.
   * @param {Text} offer @param {Text} name @param {Uint8Array} seed
   */
  keys(offer, name, seed) {
    return this.#call("keys", offer, name, Swap.#checked(seed));
  }

  /**
   * The header line of a deal: what `party deal` writes.
   * @param {Text} rows the offer's line, and each party's row
   */
  deal(rows) {
    return this.#call("deal", rows);
  }

  /**
   * What a party agrees to: what `party terms` writes.
   * @param {Text} header with lines of context @param {Text} name
   */
  terms(header, name) {
    return this.#call("terms", header, name);
  }

  /**
   * What is due for a party: what `party next` writes.
   * @param {Text} telling the input without its seed's line @param {Text} name @param {Uint8Array} seed
   */
  next(telling, name, seed) {
    return this.#call("next", telling, name, Swap.#checked(seed));
  }

  /**
   * What is found of all ledgers: what `party judge` writes.
   * @param {Text} book
   */
  judge(book) {
    return this.#call("judge", book);
  }

  /**
   * The id of a deal.
   * @param {Text} header
   */
  check(header) {
    return this.#call("check", header);
  }

  /**
   * What the program `swap` answers. It runs no race.
   * @param {string[]} words those behind its name @param {Text} input
   */
  answer(words, input) {
    if (words.some((word) => word.includes("\n"))) return { status: WRONG_WORDS, bytes: NOTHING, text: "" };
    return this.#call("answer", words.map((word) => `${word}\n`).join(""), input);
  }
}
