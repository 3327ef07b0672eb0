// Tests the functions by tests/values.tsv, by what its rows do not have, and by random calls, a million or CALLS, which
// return what c/base62.c returns: c/tests/values.c reads their rows.
import base62 from 'base62-proved';
import assert from 'node:assert/strict';
import {execFileSync, spawnSync} from 'node:child_process';
import {mkdtempSync, readFileSync, rmSync, writeFileSync} from 'node:fs';
import {tmpdir} from 'node:os';
import {join} from 'node:path';
import {test} from 'node:test';
import {runInNewContext} from 'node:vm';

import * as modules from '../index.js';

import {Checks, drawRows} from './calls.mjs';

const { Alphabet, decode, decodeFixed, decodeKey, encode, encodeFixed, encodeUuid } = base62;
const file = readFileSync(new URL('../../tests/values.tsv', import.meta.url), 'utf8');
const NAMES = Object.keys(base62).sort();
const custom = new Alphabet('23456789ABCDEFGHJKLMNPQRSTUVWXYZabcdefghijkmnpqrstuvwxyz-_.~!*');

for (const [form, functions] of Object.entries({ modules, commonJs: base62 })) {
  test(`${form}: the rows of tests/values.tsv`, () => new Checks(functions, file));
}

test('the rows find a wrong function', () => {
  const some = file.split('\n').filter((row, i) => row.startsWith('alphabet') || i % 20 === 0).join('\n');
  for (const name of NAMES)
    assert.throws(() => new Checks({...base62, [name]: function() {} }, some), / is not /, name);
});

// It throws if a call runs its code.
const trap = new Proxy(() => assert.fail('called'), { get: () => assert.fail('read') });
const bytes = new Uint8Array(16);

// Valid arguments by the types of parameters, in the order in which calls check them. A text that is all is a key.
const VALID = {
  number: 1,
  Integer: 5,
  'Integer | Uuid': 5,
  Uuid: bytes,
  EncodedString: '5',
  Alphabet: custom
};
const ORDER = Object.keys(VALID);
const validOf = (types) => types.map((type) => (`${types}` === 'EncodedString' ? '5'.repeat(22) : VALID[type]));

// By the type of a parameter in index.d.cts, the functions that have one. All arguments that they check later are wrong.
const callsOf = Object.fromEntries(ORDER.map((type) => [type, []]));
const declarations = readFileSync(new URL('../index.d.cts', import.meta.url), 'utf8');
const functions = [...declarations.matchAll(/\/\*\*\n((?: \*.*\n)+)export function (\w+)\(([^)]*)\):\s+([^;]+);/g)];
// The codes of errors in the comment of a function.
function codesOf(name) {
  const [, thrown] = /\{Base62Error\}([^]+)@example /.exec(functions.find(([, , other]) => other === name)[1]);
  return [...thrown.match(/[A-Z_]{5,}/g) ?? [], ...(thrown.match(/(?<=@link )\w+/g) ?? []).flatMap(codesOf)];
}
const typesOf = (parameters) => Array.from(parameters.matchAll(/: (\w[\w |]*)/g), ([, type]) => type);
for (const [, , name, parameters] of functions) {
  const types = typesOf(parameters);
  for (const type of types) {
    const others = validOf(types).map((valid, i) => (ORDER.indexOf(types[i]) > ORDER.indexOf(type) ? trap : valid));
    callsOf[type].push((value) => base62[name](...others.map((other, i) => (types[i] === type ? value : other))));
  }
}
const ofNumber = [...callsOf.Integer, ...callsOf['Integer | Uuid']];
const ofUuid = [...callsOf.Uuid, ...callsOf['Integer | Uuid']];

test('functions have the types, parameters and errors of index.d.cts, and those of one argument work with map', () => {
  const typeOf = (result) => Array.isArray(result) ? `[${result.map(typeOf).join(', ')}]` :
    result === null ? 'null' :
                      typeof result;
  const found = Object.fromEntries(functions.map(([, , name]) => [name, new Set()]));
  assert.deepEqual(['Alphabet', 'Base62Error', ...Object.keys(found)].sort(), NAMES);
  const recording = (name) => (...given) => {
    try {
      const result = base62[name](...given);
      found[name].add(typeOf(result));
      return result;
    } catch (error) {
      if (error.code && !codesOf(name).includes(error.code)) throw new Error('its code is not in index.d.cts');
      throw error;
    }
  };
  new Checks({...base62, ...Object.fromEntries(Object.keys(found).map((name) => [name, recording(name)])) }, file);
  for (const [, comment, name, parameters, type] of functions) {
    const tags = comment.match(/(?<=^ \* )@(param \w+|throws \{\w+\}|\w+)(?= \S)/gm);
    // A function that is like another one has its parameters and its TypeError.
    const isLike = comment.startsWith(' * Like {@link ');
    const names = parameters.match(/\w+(?=\??:)/g).map((parameter) => `@param ${parameter}`);
    const errors = isLike ? [] : ['@throws {TypeError}'];
    const given = names.filter((tag) => !isLike || tags.includes(tag));
    assert.deepEqual(tags, [...given, '@returns', ...errors, '@throws {Base62Error}', '@example'], name);
    assert.deepEqual([...found[name]].sort(), type.replace(/\w+: /g, '').split(' | ').sort(), name);
    const valid = validOf(typesOf(parameters));
    const result = base62[name](...valid);
    assert.equal(base62[name].length, valid.length - parameters.split('?').length + 1, name);
    if (valid.length === 1) assert.deepEqual([valid[0], valid[0]].map(base62[name]), [result, result]);
  }
});

function rejects(calls, values, code, message) {
  const expected = code === 'TypeError' ? { name: code, message } : { name: 'Base62Error', code, message };
  for (const call of calls)
    for (const value of values) assert.throws(() => call(value), expected);
}

test('values of wrong types are rejected, and none of their code runs', () => {
  const convertible = { valueOf: trap, toString: trap, [Symbol.toPrimitive]: trap };
  const objects = [{}, ['LZ'], Object('LZ'), convertible, new Proxy(bytes, {}), bytes.buffer];
  const values = [undefined, true, Symbol('LZ'), trap, ...objects].map((value) => [typeof value, value]);
  values.push(['null', null], ['Int8Array', new Int8Array(16)], ['Uint8ClampedArray', new Uint8ClampedArray(16)]);
  for (const [type, value] of [...values, ['number', 5], ['bigint', 5n]]) {
    const reject = (expected, message) => rejects(callsOf[expected], [value], 'TypeError', `${message}, not ${type}`);
    reject('EncodedString', 'an encoded string or a prefix is a string or a Uint8Array');
    reject('Uuid', 'a UUID is a string or a Uint8Array');
    if (type !== 'number') reject('number', 'a width is a Number');
    if (['number', 'bigint'].includes(type)) continue;
    reject('Integer', 'a number is a Number or a BigInt');
    reject('Integer | Uuid', 'a value is a Number, a BigInt, or a UUID as a string or a Uint8Array');
  }
  rejects(
    [(characters) => new Alphabet(characters)], [5, trap], 'TypeError', 'the characters of an alphabet are a string');
});

test('other alphabets are rejected', () => {
  const likenesses = [Object.create(Alphabet.prototype), Object.create(custom), new Proxy(custom, {})];
  const expected = 'an alphabet is an Alphabet';
  const reject = (values, message) => rejects(callsOf.Alphabet, values, 'TypeError', `${expected}${message}`);
  reject([null, {}, ...likenesses], ' of this copy of base62-proved');
  reject(['0', 'Standard', 'name'], ', not a string: create one with new Alphabet(..)');
  for (const [name, encoded] of [['standard', 'LZ'], ['alternative', 'lz']]) {
    reject([name], `: use Alphabet.${name}`);
    assert.equal(encode(1337, Alphabet[name]), encoded);
  }
  reject([5], ', not 5: give map a function such as (n) => encode(n)');
  assert.deepEqual([0, 1337].map((n) => encode(n)), ['0', 'LZ']);
  // Before what is wrong in this alphabet.
  const ofWidth = [encodeFixed, decodeFixed, base62.prefixRange].map((call) => (width) => call(bytes, width, null));
  rejects([...ofWidth, () => decode('', null)], [0], 'TypeError', `${expected} of this copy of base62-proved`);
  assert.throws(() => Object.defineProperty(custom, 'characters', { value: '' }), TypeError);
  for (const name of ['standard', 'alternative'])
    assert.throws(() => Object.defineProperty(Alphabet, name, { value: custom }), TypeError);
});

test('numbers and widths out of range are rejected', () => {
  const numbers = [2 ** 53, 1.5, 5e-324, NaN, Infinity, -Infinity, -1, -1n, 2n ** 128n, -(2n ** 64n), 2n ** 200n];
  const outOfRange = 'a number is an integer from 0 to 2**128 - 1, or to 2**53 - 1 as a Number';
  rejects(ofNumber, numbers, 'OUT_OF_RANGE', outOfRange);
  rejects(
    callsOf.number, [-1, 1.5, NaN, Infinity, 2 ** 53], 'OUT_OF_RANGE', 'a width is an integer from 0 to 2**53 - 1');
  rejects([(width) => encodeFixed(5, width)], [0], 'OUT_OF_RANGE', 'the number needs 1 character, and the width is 0');
  rejects(
    [(width) => encodeFixed(62, width)], [1], 'OUT_OF_RANGE', 'the number needs 2 characters, and the width is 1');
  // No string has this width.
  assert.throws(() => encodeFixed(5, 2 ** 40), (error) => error instanceof RangeError && !('code' in error));
  for (const end of ['', 'Canonical', 'Fixed']) {
    const decodeNumber = (text) => base62[`decodeNumber${end}`](text, ...(end === 'Fixed' ? [9] : []));
    rejects([decodeNumber], ['fFgnDxSe8'], 'UNSAFE_INTEGER', `the number is above 2**53 - 1: use decode${end}`);
    assert.equal(base62[`decode${end}`]('fFgnDxSe8', ...(end === 'Fixed' ? [9] : [])), 2n ** 53n);
  }
});

const OVERFLOW = 'Encoded input represents 2**128 or more, or has more than 22 characters';

test('invalid UUIDs, characters and lengths are rejected', () => {
  const uuids = ['-', new Uint8Array(0), new Uint8Array(15), new Uint8Array(17)];
  const forms = 'with hyphens or without, in braces or after urn:uuid:, or 16 bytes';
  rejects(ofUuid, uuids, 'INVALID_UUID', `a UUID is 32 hexadecimal digits, ${forms}`);
  rejects(callsOf.Uuid, ['5'], 'INVALID_UUID', `a UUID is 32 hexadecimal digits, ${forms}`);
  const create = (characters) => new Alphabet(characters);
  for (const [characters, found] of [['', '0 characters'], ['0', '1 character'], ['00', '2 characters']])
    rejects([create], [characters], 'INVALID_ALPHABET', `the alphabet has ${found}, not 62`);
  const wide = ['\u00e9', `${custom.characters.slice(2)}\u{1f600}`];
  rejects([create], wide, 'INVALID_ALPHABET', 'the alphabet has a non-ASCII character');
  // A lone surrogate has three bytes.
  const found = {
    '1 byte, not 22': ['0'],
    '3 bytes, not 22': ['\ud800'],
    '23 bytes, not 22': [`${'\u00e9'.repeat(10)}\uffff`, 'z'.repeat(23), new Uint8Array(23)]
  };
  for (const length in found) rejects([decodeKey], found[length], 'WRONG_LENGTH', `Encoded input has ${length}`);
  rejects([(text) => decodeFixed(text, 1)], [''], 'WRONG_LENGTH', 'Encoded input has 0 bytes, not 1');
  const invalid = "Encoded input contains the invalid byte b'\\xed' at index 1";
  rejects([decode, (text) => decodeFixed(text, 4)], ['0\ud800', '0\udfff'], 'INVALID_BYTE', invalid);
  rejects([decode], ['\ud800'.repeat(8)], 'OVERFLOW', OVERFLOW);
  rejects([base62.decodeCanonical], ['1'.padStart(32, '0')], 'NOT_CANONICAL', /zero: encode UUIDs with encodeKey or/);
  // After other calls too.
  encodeUuid('550e8400-e29b-41d4-a716-446655440000');
  rejects([decode], ['LZ-', 'LZ-'], 'INVALID_BYTE', "Encoded input contains the invalid byte b'-' at index 2");
});

test('100 MB are decoded and encoded without a copy, and strings of 10 MB are read', () => {
  const many = new Uint8Array(1e8).fill(48);
  const { maxRSS } = process.resourceUsage();
  assert.equal(decode(many), 0n);
  assert.equal(encodeFixed(1337, 1e8).length, 1e8);
  assert.ok(process.resourceUsage().maxRSS - maxRSS < 50_000);
  const zeros = '0'.repeat(1e7);
  for (const form of [String, Buffer.from]) {
    assert.equal(decode(form(`${zeros}LZ`)), 1337n);
    assert.equal(decodeFixed(form(`${zeros}LZ`), 10_000_002), 1337n);
    assert.deepEqual(base62.prefixRange(form(zeros), 10_000_001), [0n, 61n]);
    assert.throws(() => decode(form(`${zeros}-`)), { byte: 45, index: 1e7 });
    rejects([decode], [form('\u00e9'.repeat(5e6))], 'OVERFLOW', OVERFLOW);
    assert.throws(() => decodeFixed(form('\u00e9'.repeat(5e6)), 5e6), { code: 'WRONG_LENGTH' });
  }
});

test('any Uint8Array is read, by its own length', () => {
  class Trapped extends Uint8Array {}
  for (const name of ['buffer', 'byteLength', 'byteOffset', 'length', Symbol.toStringTag])
    Object.defineProperty(Trapped.prototype, name, { get: trap });
  for (const Bytes of [Trapped, runInNewContext('Uint8Array')]) {
    for (const size of [2, 22, 20_000]) {
      const text = new Bytes(Buffer.from('LZ'.padStart(size, '0')));
      assert.equal(decode(text), 1337n);
      assert.equal(decodeFixed(text, size), 1337n);
      assert.deepEqual(base62.prefixRange(text, size), [1337n, 1337n]);
    }
    assert.equal(encodeUuid(new Bytes([...new Uint8Array(14), 5, 57])), 'LZ');
  }
  assert.equal(decode(Buffer.from('-LZ-').subarray(1, -1)), 1337n);
  assert.equal(decode(new Uint8Array(new SharedArrayBuffer(2)).fill(48)), 0n);
  // One without a buffer, or beyond its end, is not read as an empty text. Node 18 cannot resize a buffer.
  const buffers = [new ArrayBuffer(2), new ArrayBuffer(2, { maxByteLength: 2 })];
  const lost = [new Uint8Array(buffers[0]), new Uint8Array(buffers[1], 0, 2), new Uint8Array(buffers[1], 1)];
  structuredClone(buffers[0], { transfer: [buffers[0]] });
  buffers[1].resize?.(0);
  for (const array of lost.filter(({ length }) => length === 0))
    for (const call of callsOf.EncodedString)
      assert.throws(() => call(array), { name: 'TypeError', message: /ArrayBuffer/});
});

const heapUsed = () => (globalThis.gc(), process.memoryUsage().heapUsed);

// No number is passed twice.
let next = 0n;

// Each result takes so many bytes. Code that the runtime compiles in between is in the heap too, and takes some tries.
function checkSize(most, call) {
  const sizes = [];
  do {
    const results = new Array(5000).fill('');
    const before = heapUsed();
    for (let i = 0; i < results.length; i++) results[i] = call(next++);
    sizes.push((heapUsed() - before) / results.length);
  } while (sizes.at(-1) >= most + 4 && sizes.length < 40);
  assert.ok(sizes.at(-1) < most + 4, `${call}: ${sizes}`);
}

test('a string takes the memory of its characters alone, and a call keeps no other', () => {
  for (let length = 4; length <= 22; length++) {
    const least = 62n ** BigInt(length - 1);
    checkSize(16 + 8 * Math.ceil(length / 8), (i) => encode(least + i));
  }
  checkSize(0, () => assert.throws(() => decode('LZ-')));
  checkSize(0, (i) => void encode(i));
  checkSize(0, (i) => void decode(`LZ${i}`));
  checkSize(0, () => void encodeUuid(new Uint8Array(16), custom));
  checkSize(0, () => void base62.keyBounds('L'));
  checkSize(0, () => void new Alphabet(custom.characters));
});

test('calls go on after the stack has run out in one', () => {
  // The calls of a dive have one alphabet, so that none mends what a call that fails leaves.
  const dives = [
    [
      () => encode(2n ** 127n), () => decode('7n42DGM5Tflk9n8mt7Fhc7'),
      () => base62.decodeUuid('2aUyqjCzEIiEcYMKj7TZtw'), () => encodeUuid('{550E8400-E29B-41D4-A716-446655440000}'),
      () => base62.keyRange('00zz')
    ],
    [() => encode(1337, custom), () => decode('Pd'.padStart(30, '2'), custom)]
  ];
  const expected = new Map(dives.flat().map((call) => [call, `${call()}`]));
  const failures = new Set();
  // An assertion that fails would need more stack than is left.
  const attempt = (call) => {
    try {
      if (`${call()}` !== expected.get(call)) failures.add(`${call}`);
    } catch ({ name, code }) { failures.add(`${name} ${code}`); }
  };
  let left;
  const dive = (calls) => {
    try {
      dive(calls);
    } catch { left = 60; }
    // So many frames have room for the calls.
    if (left-- > 0) calls.forEach(attempt);
  };
  // The stack begins at many places.
  for (let i = 0; i < 200; i++) {
    dives[(i + 1) % 2].forEach(attempt);
    Reflect.apply(dive, undefined, [dives[i % 2], ...Array(i >> 1)]);
  }
  dives.flat().forEach(attempt);
  assert.deepEqual([...failures], ['RangeError undefined']);
});

const skip = spawnSync('cc', ['--version']).status !== 0 && 'install a C compiler';
const wanted = Number(process.env.CALLS ?? 1e6);

test(`${wanted} random calls return what c/base62.c returns`, { skip }, () => {
  const folder = mkdtempSync(join(tmpdir(), 'base62-'));
  const [program, path] = [join(folder, 'values'), join(folder, 'rows.tsv')];
  const first = file.match(/^(alphabet|message)\t.*/gm);
  const checks = new Checks(base62, file);
  checks.called.clear();
  Error.stackTraceLimit = 0;  // so that errors take less time
  try {
    execFileSync(
      'cc', ['-O1', '-I.', '-o', program, 'tests/values.c', 'base62.c'], { cwd: new URL('../../c', import.meta.url) });
    for (const end = checks.calls + wanted; checks.calls < end;) {
      const rows = drawRows(base62);
      for (const row of rows) checks.check(row);
      writeFileSync(path, [...first, ...rows].join('\n'));
      execFileSync(program, [path]);
    }
  } finally { rmSync(folder, { recursive: true }); }
  const missing = NAMES.filter((name) => name !== 'Base62Error' && !checks.called.has(name));
  assert.equal(missing.length, 0, `js/tests/calls.mjs draws no call of ${missing}`);
});
