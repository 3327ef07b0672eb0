// SPDX-License-Identifier: MIT
// Copyright (c) 2026 the maintainers of base62 for Rattle

// The arithmetic: a number below 2**128 and its digits in base 62. A number is in one of these, the least significant
// first:
// - `words`: four words of 32 bits, and in the same memory `halves` of 64 bits, by which a BigInt is read and created
// - `groups`: six digits in base 62**4, for encoding
// - three parts, digits in base 62**8, for decoding
//
// Each sum and product is an integer below 2**53, which a double has exactly. Math.floor of a quotient is exact too: the
// double of x / d differs from it by at most x / d / 2**53 < 1 / d, and x / d is at least 1 / d below the next integer.
const GROUP = 62 ** 4;  // below 2**24
const LOWEST_24_BITS = 2 ** 24 - 1;
const TWO_TO_24 = 2 ** 24;
const TWO_TO_32 = 2 ** 32;
const TWO_TO_48 = 2 ** 48;
const TWO_TO_64 = 1n << 64n;  // Babel turns ** into Math.pow
export const TWO_TO_128 = 1n << 128n;

const halves = new BigUint64Array(2);
export const words = new Uint32Array(halves.buffer);
const groups = new Int32Array(new ArrayBuffer(24));  // V8 reads one without a buffer more slowly

// Typed arrays have the byte order of the processor.
if (new Uint8Array(Uint16Array.of(1).buffer)[0] !== 1) throw new Error('base62-proved needs a little-endian processor');

// The functions split.. write the groups of a number, and return how many digits it has.

// Writes the group of a place. Returns what remains for the higher ones.
function splitGroup(place, sum) {
  const quotient = Math.floor(sum / GROUP);
  groups[place] = sum - quotient * GROUP;
  return quotient;
}

// The number of digits, the first of which is in a group up to `place`.
function countDigits(place) {
  while (place > 0 && groups[place] === 0) place--;
  const group = groups[place];
  return 4 * place + (group < 62 ? 1 : group < 62 ** 2 ? 2 : group < 62 ** 3 ? 3 : 4);
}

// Of an integer below 2**53.
export function splitInteger(number) {
  groups[2] = splitGroup(1, splitGroup(0, number));
  groups[3] = groups[4] = groups[5] = 0;
  return countDigits(2);
}

// Returns 0 if the number is negative, or 2**128 or more. A half keeps the lowest 64 bits.
export function splitBigInt(number) {
  if (number < TWO_TO_64) {
    if (number < 0n) return 0;
    halves[0] = number;
    return splitLowWords();
  }
  if (number >= TWO_TO_128) return 0;
  halves[0] = number;
  halves[1] = number >> 64n;
  return splitWords();
}

// The words are cut into limbs of 24 bits. The factors are 2**24, 2**48, .. 2**120 in base 62**4; the most significant
// digit of each is 1. All are below 2**24, so a sum is below 5 * 2**48 + 2**28, and a quotient below 2**27.
function splitLowWords() {
  const low = words[0];
  const high = words[1];
  if (high < 2 ** 21) return splitInteger(high * 2 ** 32 + low);
  const limb1 = (low >>> 24) + (high & 0xffff) * 256;
  const limb2 = high >>> 16;
  const quotient = splitGroup(0, (low & LOWEST_24_BITS) + limb1 * 2000880 + limb2 * 5522224);
  groups[2] = limb2 + splitGroup(1, limb1 + limb2 * 4272701 + quotient);  // below 2**64 / 62**8 < 2**17
  groups[3] = groups[4] = groups[5] = 0;
  return countDigits(2);
}

export function splitWords() {
  const limb0 = words[0] & LOWEST_24_BITS;
  const limb1 = (words[0] >>> 24) + (words[1] & 0xffff) * 256;
  const limb2 = (words[1] >>> 16) + (words[2] & 0xff) * 65536;
  const limb3 = words[2] >>> 8;
  const limb4 = words[3] & LOWEST_24_BITS;
  const limb5 = words[3] >>> 24;
  let quotient =
    splitGroup(0, limb0 + limb1 * 2000880 + limb2 * 5522224 + limb3 * 6786400 + limb4 * 13735792 + limb5 * 11616352);
  quotient = splitGroup(1, limb1 + limb2 * 4272701 + limb3 * 8751018 + limb4 * 8086233 + limb5 * 11956234 + quotient);
  quotient = splitGroup(2, limb2 + limb3 * 6852152 + limb4 * 2261475 + limb5 * 6682255 + quotient);
  quotient = splitGroup(3, limb3 + limb4 * 9780890 + limb5 * 4522728 + quotient);
  groups[5] = limb5 + splitGroup(4, limb4 + limb5 * 13106211 + quotient);  // at most 2**128 / 62**20 < 2**9
  return countDigits(5);
}

// Writes the words of (high * 62**8 + middle) * 62**8 + low. Each part is below 62**8 < 2**48, and `high` below
// 62**6 < 2**36, or it is Infinity. Returns whether the number is below 2**128; if not, the words mean nothing.
export function joinParts(high, middle, low) {
  if (high > 0 || middle >= 62 ** 3) return joinLongParts(high, middle, low);
  // middle is below 2**18, and 62**8 is 50836 * 2**32 + 1148125440, so the sum is below 2**50.
  const sum = middle * 1148125440 + low;
  const top = middle * 50836 + Math.floor(sum / TWO_TO_32);  // below 2**35
  words[0] = sum;                                            // a word keeps the lowest 32 bits
  words[1] = top;
  words[2] = top / TWO_TO_32;
  words[3] = 0;
  return top < Infinity;
}

// The parts are cut into limbs of 24 bits. The factors are 62**8 and 62**16 in base 2**24. All are below 2**24, and
// high1 is below 2**12, so a sum of products is below 3 * 2**48.
function joinLongParts(high, middle, low) {
  const high0 = high & LOWEST_24_BITS;
  const high1 = Math.floor(high / TWO_TO_24);
  const middle0 = middle & LOWEST_24_BITS;
  const middle1 = Math.floor(middle / TWO_TO_24);
  const sum0 = low + middle0 * 7274752 + high0 * 65536;
  const sum1 = middle0 * 13014084 + middle1 * 7274752 + high0 * 5286366 + high1 * 65536;
  const sum2 = middle1 * 13014084 + high0 * 12249136 + high1 * 5286366;
  const sum3 = high0 * 10095023 + high1 * 12249136;
  // The number is bits0 + bits48 * 2**48 + bits96 * 2**96.
  const bits0 = sum0 + (sum1 & LOWEST_24_BITS) * TWO_TO_24;
  const bits48 =
    sum2 + (sum3 & LOWEST_24_BITS) * TWO_TO_24 + Math.floor(sum1 / TWO_TO_24) + Math.floor(bits0 / TWO_TO_48);
  const bits96 = high1 * 10095023 + Math.floor(sum3 / TWO_TO_24) + Math.floor(bits48 / TWO_TO_48);  // below 2**37
  words[0] = bits0;
  words[1] = ((bits0 / TWO_TO_32) & 0xffff) + (bits48 & 0xffff) * 65536;
  words[2] = bits48 / 2 ** 16;
  words[3] = bits96;
  return bits96 < TWO_TO_32;
}

export function bigIntOfWords() {
  if (words[2] === 0 && words[3] === 0) return halves[0];
  return (halves[1] << 64n) | halves[0];
}

// Returns -1 if the number is above 2**53 - 1.
export function integerOfWords() {
  if (words[3] !== 0 || words[2] !== 0 || words[1] >= 2 ** 21) return -1;
  return words[1] * TWO_TO_32 + words[0];
}

// The codes of 24 characters, and the same by pairs.
const pairsOfCodes = new Uint16Array(12);
const codes = new Uint8Array(pairsOfCodes.buffer);

// Writes the codes of four digits.
function writeGroup(group, at, pairs) {
  const high = (group / 62 ** 2) >> 0;
  pairsOfCodes[at] = pairs[high];
  pairsOfCodes[at + 1] = pairs[group - high * 62 ** 2];
}

// Returns the string of the lowest `count` digits of the groups, from 1 to 22. V8 keeps the parts of + and the parent of a
// slice of 13 characters or more, so one call creates each string. The usual lengths need no list of codes.
export function stringOfGroups(count, pairs) {
  for (let place = (count - 1) >> 2; place >= 0; place--) writeGroup(groups[place], 10 - 2 * place, pairs);
  const c = codes;
  const from = String.fromCharCode;
  if (count <= 4) return from(c[20], c[21], c[22], c[23]).slice(4 - count);
  if (count === 6) return from(c[18], c[19], c[20], c[21], c[22], c[23]);
  if (count === 7) return from(c[17], c[18], c[19], c[20], c[21], c[22], c[23]);
  if (count <= 8) return from(c[16], c[17], c[18], c[19], c[20], c[21], c[22], c[23]).slice(8 - count);
  if (count === 11) return from(c[13], c[14], c[15], c[16], c[17], c[18], c[19], c[20], c[21], c[22], c[23]);
  if (count <= 12)
    return from(c[12], c[13], c[14], c[15], c[16], c[17], c[18], c[19], c[20], c[21], c[22], c[23]).slice(12 - count);
  if (count === 21)
    return from(c[3], c[4], c[5], c[6], c[7], c[8], c[9], c[10], c[11], c[12], c[13], c[14], c[15], c[16], c[17], c[18],
      c[19], c[20], c[21], c[22], c[23]);
  if (count === 22)
    return from(c[2], c[3], c[4], c[5], c[6], c[7], c[8], c[9], c[10], c[11], c[12], c[13], c[14], c[15], c[16], c[17],
      c[18], c[19], c[20], c[21], c[22], c[23]);
  const list = [];
  for (let i = 24 - count; i < 24; i++) list.push(c[i]);
  return from(...list);
}
