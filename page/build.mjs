// Bundles page/src and the kernel into the one file page/fhpgas.html, by esbuild and Rust:  node page/build.mjs [FILE]
import { createHash } from "node:crypto";
import { spawnSync } from "node:child_process";
import { readFileSync, writeFileSync } from "node:fs";
import { fileURLToPath } from "node:url";
import { deflateSync, inflateSync } from "node:zlib";
import { kernelText } from "./built.mjs";

const VERSIONS = { esbuild: "0.17.0", rustc: "1.96.0" }; // with which the file in the repository was built
const pathOf = (name) => fileURLToPath(new URL(name, import.meta.url));
const room = pathOf("src/"), target = process.argv[2] ?? pathOf("fhpgas.html");

function run(command, words, cwd = room) {
  const done = spawnSync(command, words, { cwd, encoding: "utf8", maxBuffer: 1 << 26 });
  if (done.status !== 0) throw new Error(done.error?.message ?? done.stderr);
  return done.stdout.trimEnd();
}

function compare(name, version) {
  if (version !== VERSIONS[name]) console.error(`this is not ${name} ${VERSIONS[name]}`);
}

/** A module with all that it imports, as one script, or a style sheet. */
function bundled(name) {
  return run("esbuild", [name, "--bundle", "--minify", "--format=iife", "--charset=utf8", "--target=es2022", "--legal-comments=none"]);
}

/** The kernel, deflated, in base64: as it was if it is the same module, or if nothing here can build it. */
function kernel() {
  const before = kernelText(), folder = pathOf("../out/module");
  try {
    compare("rustc", run(pathOf("../plain/module.sh"), [folder]));
  } catch (fault) {
    console.error(`the kernel stays as it was: ${fault.message.trim()}`);
    return before;
  }
  const module = readFileSync(`${folder}/module.wasm`);
  new WebAssembly.Instance(new WebAssembly.Module(module)); // it asks for nothing
  return before && inflateSync(Buffer.from(before, "base64")).equals(module) ? before : deflateSync(module, { level: 9 }).toString("base64");
}

compare("esbuild", spawnSync("esbuild", ["--version"], { encoding: "utf8" }).stdout?.trim());
const [, version] = readFileSync(new URL("../CITATION.cff", import.meta.url), "utf8").match(/^version: (.*)$/m) ?? [];
const script = `\n${bundled("page.js").replace("@VERSION@", () => version)}\n`, hash = createHash("sha256").update(script).digest("base64");
const parts = { STYLE: bundled("style.css"), KERNEL: kernel(), WORKER: bundled("worker.js"), PAGE: script.trim(), HASH: hash };
const html = readFileSync(`${room}index.html`, "utf8").replace(/@([A-Z]+)@/g, (_, name) => parts[name]);
writeFileSync(target, html);
