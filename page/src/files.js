// Files: what is saved, filmed, opened, dropped and pasted.
import { $, view } from "./state.js";

let recorder = /** @type {MediaRecorder | null} */ (null); // of a film
export const isFilming = () => recorder !== null;

export function save(blob, name) {
  const link = Object.assign(document.createElement("a"), { href: URL.createObjectURL(blob), download: name });
  link.click();
  setTimeout(() => URL.revokeObjectURL(link.href), 60_000);
}

/** Begins to film the picture, or ends and saves it. */
export function record(ended) {
  if (recorder) return recorder.stop();
  const mimeType = ["video/webm", "video/mp4"].find((kind) => MediaRecorder.isTypeSupported(kind)) ?? "";
  const chunks = /** @type {Blob[]} */ ([]);
  recorder = new MediaRecorder(view().captureStream(30), { mimeType, videoBitsPerSecond: 12_000_000 });
  recorder.ondataavailable = ({ data }) => chunks.push(data);
  recorder.onstop = () => {
    save(new Blob(chunks, { type: mimeType }), `fhpgas.${mimeType.slice(6)}`);
    recorder = null;
    ended();
  };
  recorder.start(1000);
}

/** Takes what is chosen, dropped or pasted: a scene opens, and the start of a link, or of a page that was sent, is followed. */
export function takeFiles(open, follow) {
  const startOf = (text) => text.match(/(?:#|id="sent">)((?:text|scene)=[^\s<]+)/)?.[1];
  const take = (text) => (startOf(text) ? follow(startOf(text)) : open(text));
  $("file").onchange = async ({ target }) => {
    const text = await target.files[0]?.text();
    target.value = "";
    if (text !== undefined) take(text);
  };
  document.addEventListener("dragover", (event) => event.preventDefault());
  document.addEventListener("drop", async (event) => {
    event.preventDefault();
    const text = (await event.dataTransfer?.files[0]?.text()) ?? event.dataTransfer?.getData("text");
    if (text) take(text);
  });
  document.addEventListener("paste", (event) => {
    const text = event.clipboardData?.getData("text") ?? "";
    if (!startOf(text) && (event.target === $("text") || !text.includes("="))) return;
    event.preventDefault();
    take(text);
  });
}
