/** Numbers that are the same in every run: mulberry32. */
export function lots(seed) {
  const next = () => {
    let t = (seed = (seed + 0x6d2b79f5) | 0);
    t = Math.imul(t ^ (t >>> 15), t | 1);
    t ^= t + Math.imul(t ^ (t >>> 7), t | 61);
    return ((t ^ (t >>> 14)) >>> 0) / 2 ** 32;
  };
  return { chance: next, below: (n) => Math.floor(n * next()), of: (list) => list[Math.floor(list.length * next())] };
}
