// The bits in which two planes differ, as a text for the address: the lengths of runs.

/** How many bits are the same, how many then differ, and so on. */
export function lengthsOf(plane, other) {
  const ends = [0];
  let before = 0;
  plane.forEach((word, k) => {
    const unlike = word ^ other[k];
    let edges = unlike ^ (unlike << 1 | before >>> 31);
    for (; edges; edges &= edges - 1) ends.push(32 * k + 31 - Math.clz32(edges & -edges));
    before = unlike;
  });
  return ends.slice(1).map((end, k) => (end - ends[k]).toString(36)).join(".");
}

/** Whether a text is such a one, of at most so many bits. */
export const isLengths = (text, most) => !text || (/^[\da-z]+(\.[\da-z]+)*$/.test(text)
  && text.split(".").reduce((sum, length) => sum + parseInt(length, 36), 0) <= most);

/** The bits of such a text, below `most`. */
export function* bitsOf(lengths, most) {
  let at = 0, isUnlike = false;
  for (const length of lengths ? `${lengths}.${most.toString(36)}`.split(".") : []) {
    const end = Math.min(most, at + parseInt(length, 36));
    for (; at < end; at++) if (isUnlike) yield at;
    isUnlike = !isUnlike;
  }
}
