// SPDX-License-Identifier: MIT
// Copyright (c) 2026 the maintainers of base62 for Rattle

// Encoded strings, read by the alphabet that was used last, and the errors of invalid ones. A text is an encoded string
// or a prefix: a string, encoded as UTF-8, or a Uint8Array. Its units are the code units of the string, or the bytes.
import {bigIntOfWords, joinParts, TWO_TO_128} from './digits.js';
import {charCodeAt} from './uuid.js';

export const MAX_DIGITS = 22;
export const POWERS_OF_62 =
  Array(MAX_DIGITS).fill(62n).reduce((powers, base, i) => [...powers, powers[i] * base], [1n]);

// Descriptors inherit nothing, since a program may give Object.prototype a property such as `get`. An assignment would
// fail if it had a read-only `code`.
const define = (object, name, value, isWritable, isEnumerable = true) => Object.defineProperty(
  object, name, { __proto__: null, value, configurable: isWritable, enumerable: isEnumerable, writable: isWritable });
export function defineReadOnly(object, name, value) { define(object, name, value, false); }

export class Base62Error extends RangeError {
  constructor(message, code, byte, index) {
    super(message);
    define(this, 'code', code, true);
    if (byte === undefined) return;
    define(this, 'byte', byte, true);
    define(this, 'index', index, true);
  }
}

define(Base62Error.prototype, 'name', 'Base62Error', true, false);

export const quantity = (count, unit) => `${count} ${unit}${count === 1 ? '' : 's'}`;

const ESCAPES = new Map([[9, 't'], [10, 'n'], [13, 'r'], [34, '"'], [39, "'"], [92, '\\']]);

// Shows a byte as C does.
export function showByte(byte, index) {
  let shown = `\\${ESCAPES.get(byte) ?? `x${byte.toString(16).padStart(2, '0')}`}`;
  if (byte >= 32 && byte < 127 && !ESCAPES.has(byte)) shown = String.fromCharCode(byte);
  return `byte b'${shown}' at index ${index}`;
}

// The end of an error for the string of a UUID or, in the place of a number, of decimal digits. In a bundle of `encode`
// alone this regular expression is smaller than readUuidString.
const UUID = /^[\da-f]{8}(-?)([\da-f]{4}\1){3}[\da-f]{12}$/i;
export function hintFor(given, isForNumber) {
  if (typeof given !== 'string') return '';
  const hints = [];
  if (isForNumber && /^\d+$/.test(given)) hints.push('convert decimal digits with BigInt');
  if (UUID.test(given.replace(/^{(.*)}$|^urn:uuid:/i, '$1'))) hints.push('encode UUIDs with encodeKey or encodeUuid');
  return hints.length > 0 ? `: ${hints.join(', or ')}` : '';
}

const inputError = (text, message, code, byte, index) =>
  new Base62Error(`Encoded input ${message}${hintFor(text)}`, code, byte, index);
const overflow = (text) => inputError(text, 'represents 2**128 or more, or has more than 22 characters', 'OVERFLOW');

// A subclass can override `length` and the like, so the getters of %TypedArray% read them.
const typedArray = Object.getPrototypeOf(Uint8Array.prototype);
const getter = (name) => Object.getOwnPropertyDescriptor(typedArray, name).get;
const typeOf = getter(Symbol.toStringTag);
export const lengthOf = getter('length');
const codePointAt = ''.codePointAt.call.bind(''.codePointAt);

// V8 compares by === slowly once types have differed. So both are strings here, and objects in index.js.
export const isUint8Array = (value) => (typeOf.call(value) ?? '') === 'Uint8Array';

// Runs no code of the value.
const nameOfType = (value) => (value === null ? 'null' : typeOf.call(value) ?? typeof value);
export const wrongType = (expected, given, hint = '') => new TypeError(`${expected}, not ${nameOfType(given)}${hint}`);

// Returns the number of units.
export function lengthOfText(text) {
  if (typeof text === 'string') return ('' + text).length;
  if (!isUint8Array(text)) throw wrongType('an encoded string or a prefix is a string or a Uint8Array', text);
  const length = lengthOf.call(text);
  // An array whose buffer is detached or too small has none either: for it this throws a TypeError.
  if (length === 0) typedArray.keys.call(text);
  return length;
}

// The digit of each code of ASCII, or Infinity if the alphabet does not have the character, as the last element for all
// other codes. A table that never changes its place is read faster than one that is passed.
const digits = new Float64Array(129);
export const useDigits = (alphabetDigits) => digits.set(alphabetDigits);
const digitOf = (unit) => digits[Math.min(unit, 128)];
const digitAt = (text, index) => digitOf(typeof text === 'string' ? charCodeAt(text, index) : text[index]);

// The index of the first unit from `start` on that is not in the alphabet, or the length.
export function indexOfInvalid(text, start, length) {
  let index = start;
  while (index < length && digitAt(text, index) < 62) index++;
  return index;
}

export function countZeros(text, length) {
  let count = 0;
  while (count < length && digitAt(text, count) === 0) count++;
  return count;
}

// Writes the words of the number of at most 22 digits. Returns whether all are in the alphabet, and the number is below
// 2**128.
export function readDigits(text, start, end) {
  if (end - start > 16 && typeof text === 'string') return readLongString(text, start, end);
  let high = 0;
  let middle = 0;
  let low = 0;
  let i = start;
  if (typeof text === 'string') {
    for (; i < end - 8; i++) middle = middle * 62 + digitOf(charCodeAt(text, i));
    for (; i < end; i++) low = low * 62 + digitOf(charCodeAt(text, i));
  } else {
    for (; i < end - 16; i++) high = high * 62 + digitOf(text[i]);
    for (; i < end - 8; i++) middle = middle * 62 + digitOf(text[i]);
    for (; i < end; i++) low = low * 62 + digitOf(text[i]);
  }
  return joinParts(high, middle, low);
}

// A processor computes two sums at a time faster than one after the other.
function readLongString(string, start, end) {
  let high = 0;
  let middle = 0;
  let low = 0;
  let i = start;
  for (; i < end - 16; i++) high = high * 62 + digitOf(charCodeAt(string, i));
  for (; i < end - 8; i++) {
    middle = middle * 62 + digitOf(charCodeAt(string, i));
    low = low * 62 + digitOf(charCodeAt(string, i + 8));
  }
  return joinParts(high, middle, low);
}

// The number of bytes of a code point in UTF-8. A lone surrogate has its own three.
const sizeOfPoint = (point) => (point < 0x80 ? 1 : point < 0x800 ? 2 : point < 0x10000 ? 3 : 4);

function countBytes(text, start, length) {
  if (typeof text !== 'string') return length - start;
  let count = 0;
  for (let i = start; i < length; i++) {
    const point = codePointAt(text, i);
    if (point > 0xffff) i++;
    count += sizeOfPoint(point);
  }
  return count;
}

// The first of several bytes of UTF-8 starts with as many 1 bits as there are bytes: as a byte, -128 >> n starts with
// n + 1 of them. All units before the index are ASCII, so the index counts bytes too.
export function invalidByte(text, index) {
  const unit = typeof text === 'string' ? codePointAt(text, index) : text[index];
  const others = typeof text === 'string' ? sizeOfPoint(unit) - 1 : 0;
  const byte = others === 0 ? unit : ((-128 >> others) & 255) | (unit >> (6 * others));
  return inputError(text, `contains the invalid ${showByte(byte, index)}`, 'INVALID_BYTE', byte, index);
}

export function decodeText(text, length) {
  if (!readShort(text, length)) decodeByRules(text, length);
}

export function decodeFixedText(text, length, width) {
  if (length !== width || !readShort(text, length)) decodeFixedByRules(text, length, width);
}

function decodeFixedByRules(text, length, width) {
  const size = countBytes(text, 0, length);
  if (size === width) return decodeByRules(text, length);
  throw inputError(text, `has ${quantity(size, 'byte')}, not ${width}`, 'WRONG_LENGTH');
}

// Most texts are valid, and have at most 22 characters.
const readShort = (text, length) => length > 0 && length <= MAX_DIGITS && readDigits(text, 0, length);

// The rules of docs/DECODING.md of the repository, in their order.
function decodeByRules(text, length) {
  if (length === 0) throw inputError(text, 'is an empty string', 'EMPTY_INPUT');
  const start = countZeros(text, length);
  const remaining = length - start > MAX_DIGITS ? Infinity : countBytes(text, start, length);
  if (remaining > MAX_DIGITS) throw overflow(text);
  const invalid = indexOfInvalid(text, start, length);
  if (invalid < Math.min(start + 10, length)) throw invalidByte(text, invalid);
  const isFull = remaining === MAX_DIGITS && readDigits(text, start, start + 10);
  if (isFull && bigIntOfWords() * POWERS_OF_62[12] >= TWO_TO_128) throw overflow(text);
  if (invalid < length) throw invalidByte(text, invalid);
  if (!readDigits(text, start, length)) throw overflow(text);
}

export function checkCanonical(text, length) {
  if (digitAt(text, 0) === 0 && length > 1) throw inputError(text, 'has a leading zero', 'NOT_CANONICAL');
}
