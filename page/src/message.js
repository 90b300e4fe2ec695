// Messages: a font of 5 x 7 points, so that a text has the same cells everywhere, and how an address keeps a text.

// each sign with its seven rows, digits of base 32
const FONT = "AEHHVHHH BUHHUHHU CEHGGGHE DUHHHHHU EVGGUGGV FVGGUGGG GEHGNHHF HHHHVHHH IE44444E J72222IC KHIKOKIH " +
  "LGGGGGGV MHRLLHHH NHHPLJHH OEHHHHHE PUHHUGGG QEHHHLID RUHHUKIH SFGGE11U TV444444 UHHHHHHE VHHHHHA4 WHHHLLRH " +
  "XHHA4AHH YHHA4444 ZV1248GV 0EHJLPHE 14C4444E 2EH1248V 3V2421HE 426AIV22 5VGU11HE 668GUHHE 7V124888 8EHHEHHE " +
  "9EHHF12C .00000CC ,0000C48 !4444404 ?EH12404 :0CC0CC0 -000V000 +044V440 'C480000 =00V0V00 /01248G0 (2488842 " +
  ")8422248 &CIK8LID ♥0AVVE40";
// those that came later, after the space, because addresses number them
const MORE = '%OP248J3 "AAA0000 ;0CC0C48 @EHNLNGE #AAVAVAA _000000V *0LEVEL0 ΓVGGGGGG Δ4AAHHHV ΘEHHVHHE Λ4AAHHHH ΞV00E00V ' +
  "ΠVHHHHHH ΣVG848GV Φ4ELLLE4 ΨLLLE444 ΩEHHHAAR БVGGUHHU Д6AAAAVH ЖLLE4ELL ЗEH161HE ИHHJLPHH ЙA4HJLPH Л799999H УHHHF11E " +
  "ЦIIIIIV1 ЧHHHF111 ШLLLLLLV ЩLLLLLV1 ЪO88E99E ЫHHHPLLP ЬGGGUHHU ЭEH1F1HE ЮILLTLLI ЯFHHF59H ЄEHGSGHE";
// signs that look like others, and those
const LIKE = "ΑΒΕΖΗΙΚΜΝΟΡΤΥΧАВЕКМНОРСТХІЈЅГҐПФ“”„«»’‘–—", LOOKS = "ABEZHIKMNOPTYXABEKMHOPCTXIJSΓΓΠΦ\"\"\"\"\"''--";
/** @type {Map<string, number[]>} */
const ROWS = new Map(`${FONT}  ${MORE}`.split(" ").map(([sign = " ", ...rows]) => [sign, rows.map((row) => parseInt(row, 32))]));
const SIGNS = [...ROWS.keys()];
const LEAST = 4; // cells across a point
const LATE = 63; // the letter before one of a later sign
export const LETTERS = "ABCDEFGHIJKLMNOPQRSTUVWXYZabcdefghijklmnopqrstuvwxyz0123456789-_";

/** A text in the capitals of the font, without accents but for the one of Й. */
export const spelled = (text) =>
  text.replace(/<3|❤\ufe0f?/g, "♥").normalize("NFD").replace(/(?<!и(?=\u0306))\p{M}/giu, "").normalize("NFC").toUpperCase()
    .replace(/./gu, (sign) => LOOKS[LIKE.indexOf(sign)] ?? sign).replace(/\s+/g, " ").trim();

/** The lines of a text across a channel, broken between words if they are short, in points as large as fit, or null. */
function layoutOf(text, W, T) {
  for (let point = Math.floor(T / 8); point >= LEAST; point--) {
    const [most, rows] = [W / 6, T / 8].map((size) => Math.floor((0.96 * size) / point));
    if (most < 1) continue;
    const lines = [...text.matchAll(RegExp(`(.{1,${most}})(?: |$)|.{${most}}`, "gu"))].map(([all, words]) => words ?? all);
    if (lines.length <= rows) return { point, lines };
  }
  return null;
}

/** Why a text cannot be written across a channel W wide and T tall, or "". */
export function refusalOf(text, W, T) {
  const stray = [...text].find((sign) => !ROWS.has(sign));
  if (stray) return `The font has no ${stray}: it has ${SIGNS.join("")}.`;
  if (layoutOf(text, W, T)) return "";
  let most = text.length;
  while (most && !layoutOf(text.slice(0, most), W, T)) most--;
  return `${text.length} signs are too many for this lattice: ${most} of them fit.`;
}

/** Whether a place of a channel is in a text that is written across it. */
export function isInText(text, W, T) {
  const layout = layoutOf(text, W, T);
  if (!layout) return () => false;
  const { point, lines } = layout, top = (T - (8 * lines.length - 1) * point) / 2;
  return (x, y) => {
    const down = Math.floor((y - top) / point), line = lines[down >> 3] ?? "";
    const across = Math.floor((x - (W - (6 * line.length - 1) * point) / 2) / point), sign = line[Math.floor(across / 6)];
    return down >= 0 && sign !== undefined && across % 6 < 5 && (ROWS.get(sign)?.[down & 7] ?? 0) >> (4 - (across % 6)) & 1;
  };
}

/** Moves letters of six bits by a stream that begins with a key, forwards (1) or back (-1). */
function moved(numbers, key, way) {
  return numbers.map((number) => {
    key = (key * 25173 + 13849) % 65536;
    return (number + way * (key >> 10) + 64) % 64;
  });
}

const sumOf = (numbers) => numbers.reduce((sum, number) => (67 * sum + number + 1) % 4093, 1);

/** A text as an address has it: not to be read, and with a sum by which mistakes are found. */
export function sealed(text) {
  const numbers = [...text].map((sign) => SIGNS.indexOf(sign)).flatMap((at) => (at < LATE ? at : [LATE, at - LATE])), sum = sumOf(numbers);
  return [sum >> 6, sum & 63, ...moved(numbers, sum, 1)].map((number) => LETTERS[number]).join("");
}

/** The text that an address has, or null if it is broken. */
export function unsealed(letters) {
  const [high, low, ...rest] = [...letters].map((letter) => LETTERS.indexOf(letter)), sum = 64 * high + low;
  const numbers = moved(rest, sum, -1), signs = /** @type {(string | undefined)[]} */ ([]);
  for (let k = 0; k < numbers.length; k++) signs.push(SIGNS[numbers[k] < LATE ? numbers[k] : LATE + numbers[++k]]);
  return signs.length && !signs.includes(undefined) && sumOf(numbers) === sum ? signs.join("") : null;
}
