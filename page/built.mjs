// The kernel that the page has, for tests and page/means.mjs, which run what is handed out.
import { readFileSync } from "node:fs";
import { Kernel, moduleOf } from "./src/kernel.js";

/** The text of the module in page/fhpgas.html, or "". */
export const kernelText = () => readFileSync(new URL("fhpgas.html", import.meta.url), "utf8").match(/id="kernel">([^<]*)</)?.[1] ?? "";

/** What makes kernels of a text. */
export async function maker(text = kernelText()) {
  const module = await moduleOf(text);
  return (gas, width, height) => new Kernel(module, gas, width, height);
}
