// The key stream: ChaCha20 with a counter and a stream of 64 bits each. The random bits of collisions and the filling
// of a scene are taken from it, as docs/FORMATS.md says.

/** Writes the 16 words of a block (RFC 8439, 2.3) of this state, 16 words. */
export function block(state, out, at) {
  const s0 = state[0], s1 = state[1], s2 = state[2], s3 = state[3], s4 = state[4], s5 = state[5], s6 = state[6];
  const s7 = state[7], s8 = state[8], s9 = state[9], s10 = state[10], s11 = state[11], s12 = state[12];
  const s13 = state[13], s14 = state[14], s15 = state[15];
  let a0 = s0, a1 = s1, a2 = s2, a3 = s3, b0 = s4, b1 = s5, b2 = s6, b3 = s7;
  let c0 = s8, c1 = s9, c2 = s10, c3 = s11, d0 = s12, d1 = s13, d2 = s14, d3 = s15;
  for (let round = 0; round < 10; round++) {
    a0 = a0 + b0 | 0; d0 ^= a0; d0 = d0 << 16 | d0 >>> 16; c0 = c0 + d0 | 0; b0 ^= c0; b0 = b0 << 12 | b0 >>> 20;
    a0 = a0 + b0 | 0; d0 ^= a0; d0 = d0 << 8 | d0 >>> 24; c0 = c0 + d0 | 0; b0 ^= c0; b0 = b0 << 7 | b0 >>> 25;
    a1 = a1 + b1 | 0; d1 ^= a1; d1 = d1 << 16 | d1 >>> 16; c1 = c1 + d1 | 0; b1 ^= c1; b1 = b1 << 12 | b1 >>> 20;
    a1 = a1 + b1 | 0; d1 ^= a1; d1 = d1 << 8 | d1 >>> 24; c1 = c1 + d1 | 0; b1 ^= c1; b1 = b1 << 7 | b1 >>> 25;
    a2 = a2 + b2 | 0; d2 ^= a2; d2 = d2 << 16 | d2 >>> 16; c2 = c2 + d2 | 0; b2 ^= c2; b2 = b2 << 12 | b2 >>> 20;
    a2 = a2 + b2 | 0; d2 ^= a2; d2 = d2 << 8 | d2 >>> 24; c2 = c2 + d2 | 0; b2 ^= c2; b2 = b2 << 7 | b2 >>> 25;
    a3 = a3 + b3 | 0; d3 ^= a3; d3 = d3 << 16 | d3 >>> 16; c3 = c3 + d3 | 0; b3 ^= c3; b3 = b3 << 12 | b3 >>> 20;
    a3 = a3 + b3 | 0; d3 ^= a3; d3 = d3 << 8 | d3 >>> 24; c3 = c3 + d3 | 0; b3 ^= c3; b3 = b3 << 7 | b3 >>> 25;
    a0 = a0 + b1 | 0; d3 ^= a0; d3 = d3 << 16 | d3 >>> 16; c2 = c2 + d3 | 0; b1 ^= c2; b1 = b1 << 12 | b1 >>> 20;
    a0 = a0 + b1 | 0; d3 ^= a0; d3 = d3 << 8 | d3 >>> 24; c2 = c2 + d3 | 0; b1 ^= c2; b1 = b1 << 7 | b1 >>> 25;
    a1 = a1 + b2 | 0; d0 ^= a1; d0 = d0 << 16 | d0 >>> 16; c3 = c3 + d0 | 0; b2 ^= c3; b2 = b2 << 12 | b2 >>> 20;
    a1 = a1 + b2 | 0; d0 ^= a1; d0 = d0 << 8 | d0 >>> 24; c3 = c3 + d0 | 0; b2 ^= c3; b2 = b2 << 7 | b2 >>> 25;
    a2 = a2 + b3 | 0; d1 ^= a2; d1 = d1 << 16 | d1 >>> 16; c0 = c0 + d1 | 0; b3 ^= c0; b3 = b3 << 12 | b3 >>> 20;
    a2 = a2 + b3 | 0; d1 ^= a2; d1 = d1 << 8 | d1 >>> 24; c0 = c0 + d1 | 0; b3 ^= c0; b3 = b3 << 7 | b3 >>> 25;
    a3 = a3 + b0 | 0; d2 ^= a3; d2 = d2 << 16 | d2 >>> 16; c1 = c1 + d2 | 0; b0 ^= c1; b0 = b0 << 12 | b0 >>> 20;
    a3 = a3 + b0 | 0; d2 ^= a3; d2 = d2 << 8 | d2 >>> 24; c1 = c1 + d2 | 0; b0 ^= c1; b0 = b0 << 7 | b0 >>> 25;
  }
  out[at] = a0 + s0 | 0; out[at + 1] = a1 + s1 | 0; out[at + 2] = a2 + s2 | 0; out[at + 3] = a3 + s3 | 0;
  out[at + 4] = b0 + s4 | 0; out[at + 5] = b1 + s5 | 0; out[at + 6] = b2 + s6 | 0; out[at + 7] = b3 + s7 | 0;
  out[at + 8] = c0 + s8 | 0; out[at + 9] = c1 + s9 | 0; out[at + 10] = c2 + s10 | 0; out[at + 11] = c3 + s11 | 0;
  out[at + 12] = d0 + s12 | 0; out[at + 13] = d1 + s13 | 0; out[at + 14] = d2 + s14 | 0; out[at + 15] = d3 + s15 | 0;
}

const words = (value) => new Int32Array(BigUint64Array.of(BigInt(value)).buffer);
/** Room for whole blocks with so many words. */
export const blocks = (words) => new Int32Array(Math.ceil(words / 16) * 16);

/** Fills whole blocks from a stream of a seed. */
export function keyStream(seed, stream, out) {
  const state = Int32Array.of(0x61707865, 0x3320646e, 0x79622d32, 0x6b206574, ...words(seed), 0, 0, 0, 0, 0, 0, 0, 0,
    ...words(stream));
  for (let at = 0; at < out.length; at += 16) {
    state[12] = at >> 4;
    block(state, out, at);
  }
}
