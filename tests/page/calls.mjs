// Calls the page's module of include/fhpgas.h, or the proved engine.js, for tests/plain/calls.py, as calls.c there calls a library.
//   node tests/page/calls.mjs page|engine
import { readFileSync, readSync, writeSync } from "node:fs";
import { fileURLToPath } from "node:url";
import { kernelText } from "../../page/built.mjs";
import { moduleOf } from "../../page/src/kernel.js";

const NUMBERS = 8, ARRAYS = 3, root = fileURLToPath(new URL("../..", import.meta.url));
const header = readFileSync(`${root}include/fhpgas.h`, "utf8");
if (process.argv[2] === "engine") new Function(readFileSync(`${root}page/engine.js`, "utf8"))();
const { exports } = new WebAssembly.Instance(await moduleOf(globalThis.FHPGAS_ENGINE ?? kernelText()));
const place = typeof exports.fhpgas_work_words(0, 1) === "bigint" ? BigInt : Number;

function read(length) {
  const bytes = Buffer.alloc(length);
  for (let at = 0, more; at < length; at += more) if (!(more = readSync(0, bytes, at, length - at))) process.exit();
  return bytes;
}

/** The numbers that a call takes, those of 64 bits by the header as BigInt. */
function numbersOf(name, words) {
  const kinds = [...header.match(`fhpgas_${name}\\(([^)]*)\\);`)[1].matchAll(/uint(\d+)_t \w/g)];
  return kinds.map(([, bits], k) => (bits === "64" ? words[k] : Number(words[k])));
}

for (;;) {
  const name = read(16).toString("latin1").replaceAll("\0", ""), words = new BigUint64Array(read(8 * (NUMBERS + 2 * ARRAYS)).buffer);
  let end = Math.ceil(Number(exports.__heap_base.value) / 64) * 64;
  const ends = Array.from({ length: ARRAYS }, (_, k) => [words[NUMBERS + 2 * k], Number(words[NUMBERS + 2 * k + 1])]);
  const places = ends.map(([, bytes]) => [end, (end += 64 * Math.ceil(bytes / 64))][0]);
  exports.memory.grow(Math.max(0, Math.ceil((end - exports.memory.buffer.byteLength) / 65536)));
  const seen = () => ends.map(([, bytes], k) => new Uint8Array(exports.memory.buffer, places[k], bytes));
  seen().forEach((view) => view.set(read(view.length)));
  const arrays = ends.flatMap(([length], k) => [place(places[k]), place(length)]);
  const returned = exports[`fhpgas_${name}`](...numbersOf(name, words), ...arrays);
  const answer = Buffer.concat([Buffer.alloc(8), ...seen()]);
  answer.writeBigUInt64LE(BigInt.asUintN(64, BigInt(typeof returned === "bigint" ? returned : returned >>> 0)));
  for (let at = 0; at < answer.length; ) at += writeSync(1, answer, at);
}
