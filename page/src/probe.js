// The probe: whether the flow across has a period, and which.

/** @typedef {{ generation: number, u: number, v: number, incoming: number | null }} Sample */

export const LEAST_PERIODS = 8;
const PARTS = 512; // into which the time is cut
const SHARE = 0.45; // of the power is at least near the peak
const SPREAD = 0.22; // of the periods at most, as a part of their mean
const WIDE = 0.2; // the part of its frequency that is near the peak
const STROUHAL = [0.05, 1]; // no wake sheds more slowly or more often
const sum = (values) => values.reduce((a, b) => a + b, 0);
const mean = (values) => sum(values) / values.length;
const variance = (values, middle) => mean(values.map((value) => (value - middle) ** 2));

/** The mean flow across in equal parts of the time, on lines where a part has no sample. */
function parted(samples) {
  const first = samples[0].generation, long = (samples[samples.length - 1].generation - first) / PARTS;
  let at = 0;
  return Array.from({ length: PARTS }, (_, k) => {
    const from = at;
    while (at < samples.length && samples[at].generation < first + (k + 1) * long) at++;
    if (at > from) return mean(samples.slice(from, at).map(({ v }) => v));
    const [a, b] = [samples[Math.max(0, from - 1)], samples[Math.min(samples.length - 1, from)]];
    const part = (first + (k + 0.5) * long - a.generation) / (b.generation - a.generation || 1);
    return a.v + part * (b.v - a.v);
  });
}

/** The power at each number of periods, of values without their trend, faded in and out. */
function spectrum(values) {
  const middle = mean(values), n = values.length, center = (n - 1) / 2;
  const slope = sum(values.map((value, i) => value * (i - center))) / ((n * (n * n - 1)) / 12);
  const fade = (i) => Math.sin((Math.PI * (i + 0.5)) / n) ** 2;
  const faded = values.map((value, i) => (value - middle - slope * (i - center)) * fade(i));
  return Array.from({ length: n / 4 }, (_, k) => {
    let real = 0, imaginary = 0;
    for (let i = 0; i < n; i++) {
      real += faded[i] * Math.cos((2 * Math.PI * k * i) / n);
      imaginary += faded[i] * Math.sin((2 * Math.PI * k * i) / n);
    }
    return real * real + imaginary * imaginary;
  });
}

/** The number of periods at the peak, if enough of the power is near it, else 0. */
function peakOf(power, least, most) {
  const kept = power.map((value, k) => (k > 1 ? value : 0)), peak = kept.indexOf(Math.max(...kept));
  if (peak < least || peak > most) return 0;
  const near = kept.filter((_, k) => Math.abs(k - peak) <= Math.max(1.5, WIDE * peak));
  return sum(near) / sum(kept) >= SHARE ? peak : 0;
}

/** The lengths between crossings of the mean upwards, with values clearly below it between. */
function lengths(values) {
  const middle = mean(values), clear = Math.sqrt(variance(values, middle)) / 2, times = [];
  let isBelow = false;
  values.forEach((value, i) => {
    const before = values[i - 1];
    if (isBelow && value > middle && before <= middle) times.push(i - (value - middle) / (value - before));
    if (value < middle - clear) isBelow = true;
    else if (value > middle + clear) isBelow = false;
  });
  const kept = times.filter((time, k) => k === 0 || time - times[k - 1] > 1);
  return kept.slice(1).map((time, k) => time - kept[k]);
}

const rolling = (values, wide) => values.map((_, i) => mean(values.slice(Math.max(0, i - wide), i + wide + 1)));

/** The samples as a text: a line for each. @param {Sample[]} samples @param {Disc} disc */
export const textOf = (samples, { at: [x, y], radius }) => `# mean velocity in a disc of radius ${radius} about ${x.toFixed(1)} ${y.toFixed(1)}, ` +
  `in cells per generation\n# generation u v\n${samples.map(({ generation, u, v }) => `${generation} ${u.toFixed(6)} ${v.toFixed(6)}\n`).join("")}`;

/**
 * The period of the flow across in generations, its standard error, how many periods, and the mean speed that met the
 * obstacle during them. It is null unless eight periods were seen, most of the power is near one frequency, and the
 * periods agree with it and with each other. Of 200 runs of noise at most two show one.
 * @param {Sample[]} samples by generation @param {number} turnover the time L / (g u)
 */
export function periodOf(samples, turnover) {
  const kept = samples.slice(Math.floor(samples.length / 4));
  if (kept.length < 64) return null;
  const parts = parted(kept), span = kept[kept.length - 1].generation - kept[0].generation;
  const [slowest, most] = STROUHAL.map((number) => (number * span) / turnover);
  const peak = peakOf(spectrum(parts), Math.max(LEAST_PERIODS, slowest), most);
  if (!peak) return null;
  const found = lengths(rolling(parts, Math.floor(PARTS / peak / 8))).map((length) => (length * span) / PARTS);
  const count = found.length, period = mean(found), spread = Math.sqrt(variance(found, period) * (count / (count - 1)));
  if (count < LEAST_PERIODS || Math.abs((period * peak) / span - 1) > WIDE || spread > SPREAD * period) return null;
  const met = kept.flatMap(({ incoming }) => incoming ?? []);
  return { period, error: spread / Math.sqrt(count), count, incoming: met.length ? mean(met) : null };
}
