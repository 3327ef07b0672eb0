// SPDX-License-Identifier: MIT
// Copyright (c) 2026 the maintainers of base62 for Rattle

// UUIDs, as strings and bytes, to and from the words of their numbers.
import {words} from './digits.js';

// V8 has many internal forms of strings, and finds a property slowly once it was read from five of them. So this method
// is found once, and common paths read the length of '' + text, which V8 knows to be a string.
export const charCodeAt = ''.charCodeAt.call.bind(''.charCodeAt);

// The value of each hexadecimal digit by its code. That of other codes, the last one, makes each sum in readHex negative.
const invalid = (count) => Array(count).fill(-(2 ** 16));
const HEX_VALUES = new Int32Array([
  ...invalid(48), 0, 1, 2, 3, 4, 5, 6, 7, 8, 9, ...invalid(7), 10, 11, 12, 13, 14, 15, ...invalid(26), 10, 11, 12, 13,
  14, 15, ...invalid(26)
]);
const HEX = new Uint8Array([48, 49, 50, 51, 52, 53, 54, 55, 56, 57, 97, 98, 99, 100, 101, 102]);

// Returns the value of four digits, or a negative number if one is invalid.
function readHex(string, start) {
  const a = HEX_VALUES[Math.min(charCodeAt(string, start), 128)];
  const b = HEX_VALUES[Math.min(charCodeAt(string, start + 1), 128)];
  const c = HEX_VALUES[Math.min(charCodeAt(string, start + 2), 128)];
  return ((a * 16 + b) * 16 + c) * 16 + HEX_VALUES[Math.min(charCodeAt(string, start + 3), 128)];
}

const HYPHEN = 45;
const hasHyphens = (string, start) => charCodeAt(string, start + 8) === HYPHEN &&
  charCodeAt(string, start + 13) === HYPHEN && charCodeAt(string, start + 18) === HYPHEN &&
  charCodeAt(string, start + 23) === HYPHEN;

// Writes the words of a UUID, with hyphens or without. Returns whether so many characters from `start` on are one.
function readUuid(string, start, length) {
  const hyphen = length === 36 ? 1 : 0;
  if (hyphen ? !hasHyphens(string, start) : length !== 32) return false;
  const a = readHex(string, start);
  const b = readHex(string, start + 4);
  const c = readHex(string, start + 8 + hyphen);
  const d = readHex(string, start + 12 + 2 * hyphen);
  const e = readHex(string, start + 16 + 3 * hyphen);
  const f = readHex(string, start + 20 + 4 * hyphen);
  const g = readHex(string, start + 24 + 4 * hyphen);
  const h = readHex(string, start + 28 + 4 * hyphen);
  if (a < 0 || b < 0 || c < 0 || d < 0 || e < 0 || f < 0 || g < 0 || h < 0) return false;
  words[3] = a * 65536 + b;
  words[2] = c * 65536 + d;
  words[1] = e * 65536 + f;
  words[0] = g * 65536 + h;
  return true;
}

// The UUID may also be in braces or after urn:uuid:.
export function readUuidString(string) {
  const length = ('' + string).length;
  if (length <= 36 && readUuid(string, 0, length)) return true;
  if (length < 34) return false;
  if (charCodeAt(string, 0) === 123 && charCodeAt(string, length - 1) === 125) return readUuid(string, 1, length - 2);
  return string.slice(0, 9).toLowerCase() === 'urn:uuid:' && readUuid(string, 9, length - 9);
}

export function readUuidBytes(bytes) {
  for (let i = 0; i < 4; i++) {
    words[3 - i] = bytes[4 * i] * 2 ** 24 + bytes[4 * i + 1] * 65536 + bytes[4 * i + 2] * 256 + bytes[4 * i + 3];
  }
}

export function uuidOfWords() {
  const [a, b, c, d] = [words[3], words[2], words[1], words[0]];
  return String.fromCharCode(HEX[a >>> 28], HEX[(a >>> 24) & 15], HEX[(a >>> 20) & 15], HEX[(a >>> 16) & 15],
    HEX[(a >>> 12) & 15], HEX[(a >>> 8) & 15], HEX[(a >>> 4) & 15], HEX[a & 15], HYPHEN, HEX[b >>> 28],
    HEX[(b >>> 24) & 15], HEX[(b >>> 20) & 15], HEX[(b >>> 16) & 15], HYPHEN, HEX[(b >>> 12) & 15], HEX[(b >>> 8) & 15],
    HEX[(b >>> 4) & 15], HEX[b & 15], HYPHEN, HEX[c >>> 28], HEX[(c >>> 24) & 15], HEX[(c >>> 20) & 15],
    HEX[(c >>> 16) & 15], HYPHEN, HEX[(c >>> 12) & 15], HEX[(c >>> 8) & 15], HEX[(c >>> 4) & 15], HEX[c & 15],
    HEX[d >>> 28], HEX[(d >>> 24) & 15], HEX[(d >>> 20) & 15], HEX[(d >>> 16) & 15], HEX[(d >>> 12) & 15],
    HEX[(d >>> 8) & 15], HEX[(d >>> 4) & 15], HEX[d & 15]);
}
