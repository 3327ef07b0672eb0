// SPDX-License-Identifier: MIT
// Copyright (c) 2026 the maintainers of base62 for Rattle

// The public functions, which index.d.cts describes. The default export has all of them, as in Node.
import {bigIntOfWords, integerOfWords, splitBigInt, splitInteger, splitWords, stringOfGroups, TWO_TO_128} from './digits.js';
import {Base62Error, checkCanonical, countZeros, decodeFixedText, decodeText, defineReadOnly, hintFor, indexOfInvalid, invalidByte, isUint8Array, lengthOf, lengthOfText, MAX_DIGITS, POWERS_OF_62, quantity, readDigits, showByte, useDigits, wrongType} from './strings.js';
import {readUuidBytes, readUuidString, uuidOfWords} from './uuid.js';

const KEY_LENGTH = 22;

// The digits and the pairs of each alphabet.
const tables = new WeakMap();

// The digit of each code, as in strings.js. The characters are 62 of ASCII.
function createDigits(characters) {
  const digits = new Float64Array(Array(129).fill(Infinity));
  for (let digit = 0; digit < 62; digit++) {
    const code = characters.charCodeAt(digit);
    if (digits[code] < 62)
      throw new Base62Error(`Alphabet repeats the ${showByte(code, digit)}`, 'REPEATED_CHARACTER', code, digit);
    digits[code] = digit;
  }
  return digits;
}

// The codes of the two characters of each number below 62**2, the first in the low byte.
function createPairs(characters) {
  const pairs = new Uint16Array(62 ** 2);
  for (let i = 0; i < 62 ** 2; i++) pairs[i] = characters.charCodeAt(i / 62) + characters.charCodeAt(i % 62) * 256;
  return pairs;
}

class Alphabet {
  constructor(characters) {
    if (typeof characters !== 'string') throw new TypeError('the characters of an alphabet are a string');
    const length = characters.length;
    let wrong = length !== 62 && `has ${quantity(length, 'character')}, not 62`;
    if (/[^\0-\x7f]/.test(characters)) wrong = 'has a non-ASCII character';
    if (wrong) throw new Base62Error(`the alphabet ${wrong}`, 'INVALID_ALPHABET');
    tables.set(this, { digits: createDigits(characters), pairs: createPairs(characters) });
    defineReadOnly(this, 'characters', characters);
  }
}

defineReadOnly(Alphabet, 'standard', new Alphabet('0123456789ABCDEFGHIJKLMNOPQRSTUVWXYZabcdefghijklmnopqrstuvwxyz'));
defineReadOnly(Alphabet, 'alternative', new Alphabet('0123456789abcdefghijklmnopqrstuvwxyzABCDEFGHIJKLMNOPQRSTUVWXYZ'));
const { standard } = Alphabet;

// The alphabet that was used last, whose digits strings.js has, and its pairs.
let current;
let currentPairs;

// Makes an alphabet the current one, and returns its pairs.
function use(alphabet) {
  if (typeof alphabet !== 'object' || alphabet !== current) replaceCurrent(alphabet);
  return currentPairs;
}

function replaceCurrent(alphabet) {
  const found = tables.get(alphabet);
  if (!found) throw notAnAlphabet(alphabet);
  current = undefined;  // if the engine aborts the next line
  useDigits(found.digits);
  currentPairs = found.pairs;
  current = alphabet;
}

function notAnAlphabet(given) {
  const expected = 'an alphabet is an Alphabet';
  if (given === 'standard' || given === 'alternative') return new TypeError(`${expected}: use Alphabet.${given}`);
  if (typeof given === 'string') return new TypeError(`${expected}, not a string: create one with new Alphabet(..)`);
  if (typeof given !== 'number') return new TypeError(`${expected} of this copy of base62-proved`);
  // Methods such as map pass an index as the second argument.
  return new TypeError(`${expected}, not ${given}: give map a function such as (n) => encode(n)`);
}

const isUnsignedSafeInteger = (number) => Number.isSafeInteger(number) && number >= 0;

function checkWidth(width) {
  if (typeof width !== 'number') throw wrongType('a width is a Number', width);
  if (!isUnsignedSafeInteger(width)) throw new Base62Error('a width is an integer from 0 to 2**53 - 1', 'OUT_OF_RANGE');
}

// The functions split.. write the groups of a value, and return how many digits it has.

function splitNumber(number) {
  let count = 0;
  if (typeof number === 'bigint') count = splitBigInt(number);
  else if (typeof number !== 'number')
    throw wrongType('a number is a Number or a BigInt', number, hintFor(number, true));
  else if (isUnsignedSafeInteger(number)) count = splitInteger(number);
  if (count > 0) return count;
  throw new Base62Error('a number is an integer from 0 to 2**128 - 1, or to 2**53 - 1 as a Number', 'OUT_OF_RANGE');
}

function splitUuid(uuid, mayBeNumber = false) {
  if (typeof uuid === 'string') {
    if (!readUuidString(uuid)) throw invalidUuid(mayBeNumber ? hintFor(uuid, true) : '');
  } else {
    if (!isUint8Array(uuid)) throw wrongType('a UUID is a string or a Uint8Array', uuid);
    if (lengthOf.call(uuid) !== 16) throw invalidUuid();
    readUuidBytes(uuid);
  }
  return splitWords();
}

function invalidUuid(hint = '') {
  const forms = 'with hyphens or without, in braces or after urn:uuid:';
  return new Base62Error(`a UUID is 32 hexadecimal digits, ${forms}, or 16 bytes${hint}`, 'INVALID_UUID');
}

const encode = (number, alphabet = standard) => stringOfGroups(splitNumber(number), use(alphabet));
const encodeUuid = (uuid, alphabet = standard) => stringOfGroups(splitUuid(uuid), use(alphabet));

function splitValue(value) {
  if (typeof value === 'number' || typeof value === 'bigint') return splitNumber(value);
  if (typeof value === 'string' || isUint8Array(value)) return splitUuid(value, true);
  throw wrongType('a value is a Number, a BigInt, or a UUID as a string or a Uint8Array', value);
}

function encodeFixed(value, width, alphabet = standard) {
  checkWidth(width);
  const count = splitValue(value);
  const pairs = use(alphabet);
  if (count > width)
    throw new Base62Error(
      `the number needs ${quantity(count, 'character')}, and the width is ${width}`, 'OUT_OF_RANGE');
  const string = stringOfGroups(Math.min(width, MAX_DIGITS), pairs);
  return width > MAX_DIGITS ? string.padStart(width, alphabet.characters[0]) : string;
}

// A key is a string of KEY_LENGTH characters of the standard alphabet.
const encodeKey = (value) => encodeFixed(value, KEY_LENGTH);
const digitCount = (number) => splitNumber(number);

// The functions decode..Over write the words of the number of a text, and return its length, which is not 0.

function decodeOver(text, alphabet) {
  const length = lengthOfText(text);
  use(alphabet);
  decodeText(text, length);
  return length;
}

function decodeCanonicalOver(text, alphabet) {
  const length = decodeOver(text, alphabet);
  checkCanonical(text, length);
  return length;
}

function decodeFixedOver(text, width, alphabet) {
  checkWidth(width);
  const length = lengthOfText(text);
  use(alphabet);
  decodeFixedText(text, length, width);
  return length;
}

function safeIntegerOfWords(instead) {
  const number = integerOfWords();
  if (number < 0) throw new Base62Error(`the number is above 2**53 - 1: use ${instead}`, 'UNSAFE_INTEGER');
  return number;
}

const decode = (text, alphabet = standard) => decodeOver(text, alphabet) && bigIntOfWords();
const decodeNumber = (text, alphabet = standard) => decodeOver(text, alphabet) && safeIntegerOfWords('decode');
const decodeUuid = (text, alphabet = standard) => decodeOver(text, alphabet) && uuidOfWords();

const decodeCanonical = (text, alphabet = standard) => decodeCanonicalOver(text, alphabet) && bigIntOfWords();
const decodeNumberCanonical = (text, alphabet = standard) =>
  decodeCanonicalOver(text, alphabet) && safeIntegerOfWords('decodeCanonical');
const decodeUuidCanonical = (text, alphabet = standard) => decodeCanonicalOver(text, alphabet) && uuidOfWords();

const decodeFixed = (text, width, alphabet = standard) => decodeFixedOver(text, width, alphabet) && bigIntOfWords();
const decodeNumberFixed = (text, width, alphabet = standard) =>
  decodeFixedOver(text, width, alphabet) && safeIntegerOfWords('decodeFixed');
const decodeUuidFixed = (text, width, alphabet = standard) => decodeFixedOver(text, width, alphabet) && uuidOfWords();

const decodeKey = (text) => decodeFixed(text, KEY_LENGTH);
const decodeUuidKey = (text) => decodeUuidFixed(text, KEY_LENGTH);

function prefixRange(prefix, width, alphabet = standard) {
  checkWidth(width);
  const length = lengthOfText(prefix);
  use(alphabet);
  const start = length > MAX_DIGITS ? countZeros(prefix, length) : 0;
  if (length - start > MAX_DIGITS || !readDigits(prefix, start, length)) {
    const invalid = indexOfInvalid(prefix, start, length);
    if (invalid < length) throw invalidByte(prefix, invalid);
    return null;
  }
  if (length > width || width === 0) return null;
  // After zeros alone 22 characters have all numbers, and after others they have none.
  const count = POWERS_OF_62[Math.min(width - length, MAX_DIGITS)];
  const least = bigIntOfWords() * count;
  if (least >= TWO_TO_128) return null;
  const end = least + count;
  return [least, end < TWO_TO_128 ? end - 1n : TWO_TO_128 - 1n];
}

const keyRange = (prefix) => prefixRange(prefix, KEY_LENGTH);

function keyBounds(prefix) {
  const range = keyRange(prefix);
  return range && [encodeKey(range[0]), encodeKey(range[1])];
}

export * as default from './index.js';
export {Alphabet, Base62Error};
export {digitCount, encode, encodeFixed, encodeKey, encodeUuid, keyBounds, keyRange, prefixRange};
export {decode, decodeCanonical, decodeFixed, decodeKey, decodeNumber, decodeNumberCanonical, decodeNumberFixed};
export {decodeUuid, decodeUuidCanonical, decodeUuidFixed, decodeUuidKey};
