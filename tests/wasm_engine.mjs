// @ts-check
// Calls the module of WebAssembly for tests/wasm_engine.py: what is asked on standard input is a
// function's number and three texts, each behind its length, and what is answered a status and a text.
import { openSync, readFileSync, readSync, writeSync } from "node:fs";
import { performance } from "node:perf_hooks";
import process from "node:process";
import { Swap } from "../tools/wasm_module/swap.mjs";

const TRAPPED = 0xffffffff, CALLS = 200;
const FUNCTIONS = ["keys", "deal", "terms", "next", "judge", "check", "answer"];
// (opened once more: Node reads its own standard input without waiting)
const input = openSync("/dev/stdin", "r"), output = openSync("/dev/stdout", "w");
const swap = await Swap.of(readFileSync(process.argv[2]));

/** @param {number} size so many bytes of standard input, or nothing at its end */
function read(size) {
  const bytes = new Uint8Array(size);
  for (let at = 0; at < size;) {
    const count = readSync(input, bytes, at, size - at, null);
    if (count === 0) process.exit(0);
    at += count;
  }
  return bytes;
}

const number = () => new DataView(read(4).buffer).getUint32(0, true);
const text = () => read(number());
const decoded = (/** @type {Uint8Array} */ bytes) => new TextDecoder("utf-8", { fatal: true, ignoreBOM: true }).decode(bytes);

/** @param {Uint8Array} bytes */
function write(bytes) {
  for (let at = 0; at < bytes.length;) at += writeSync(output, bytes, at);
}

/** @param {number} status @param {Uint8Array} bytes */
function answer(status, bytes) {
  const head = new DataView(new ArrayBuffer(8));
  head.setUint32(0, status, true);
  head.setUint32(4, bytes.length, true);
  write(new Uint8Array(head.buffer));
  write(bytes);
}

/**
 * What a function of the library says.
 * @param {string} name @param {Uint8Array} first @param {Uint8Array} second @param {Uint8Array} seed
 */
function said(name, first, second, seed) {
  if (name === "keys") return swap.keys(first, second, seed);
  if (name === "next") return swap.next(first, second, seed);
  if (name === "terms") return swap.terms(first, second);
  if (name === "answer") return swap.answer(decoded(first).split("\n").slice(0, -1), second);
  return name === "deal" ? swap.deal(first) : name === "judge" ? swap.judge(first) : swap.check(first);
}

/**
 * A text whose length grows once it is copied, so that the module reads beyond its memory and traps.
 * @returns {any}
 */
function liar() {
  let asked = 0;
  return { get length() { return asked++ < 2 ? 16 : 500 << 20; } };
}

/** What is told of the module itself: its version, its memory, what it takes from its host. */
function told() {
  const module = new WebAssembly.Module(readFileSync(process.argv[2]));
  const names = WebAssembly.Module.exports(module).map(({ name }) => name);
  return { version: swap.version, memory: swap.memory, imports: WebAssembly.Module.imports(module).length, exports: names };
}

/**
 * How many milliseconds the quickest of many calls takes, behind as many that let the engine compile
 * what is called often.
 * @param {() => void} call
 */
function timed(call) {
  let least = Infinity;
  for (let at = 0; at < 2 * CALLS; at++) {
    const begun = performance.now();
    call();
    if (at >= CALLS) least = Math.min(least, performance.now() - begun);
  }
  return least;
}

for (;;) {
  const which = number(), first = text(), second = text(), seed = text();
  const name = FUNCTIONS[which % 100];
  try {
    if (which === 99) {
      answer(0, new TextEncoder().encode(JSON.stringify(told())));
    } else if (which === 98) {
      swap.next(liar(), "alice", new Uint8Array(32));
      answer(0, new TextEncoder().encode("it didn't trap"));
    } else if (which >= 100) {
      answer(0, new TextEncoder().encode(String(timed(() => said(name, first, second, seed)))));
    } else {
      const { status, bytes } = said(name, first, second, seed);
      answer(status, bytes);
    }
  } catch (why) {
    answer(TRAPPED, new TextEncoder().encode(String(why)));
  }
}
