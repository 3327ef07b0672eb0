#!/usr/bin/env node
// What is proved of the modules in a folder, or in js/: js/proof/prove.mjs [FOLDER]. README.md says it in words.
import {readFileSync} from 'node:fs';
import {resolve} from 'node:path';
import {fileURLToPath} from 'node:url';

import {read} from './forms.mjs';
import {explore, integer, power, range, solve, Unknown} from './path.mjs';
import {arrayOf, Machine, textOf, THROWN} from './rules.mjs';

const folder = resolve(process.argv[2] ?? fileURLToPath(new URL('..', import.meta.url)));
const FILES = ['digits.js', 'uuid.js', 'strings.js', 'index.js'];
const modules = read(FILES.map((file) => [file, readFileSync(`${folder}/${file}`, 'utf8')]));
const paths = [];

// An error may be thrown only where `isError` holds.
function prove(name, run) {
  paths.push(...explore((path) => {
    const machine = new Machine(modules, Object.assign(path, { name, isError: 'false' }));
    try {
      run(machine.functions, machine, path);
    } catch (error) {
      if (error === THROWN) path.prove('no error is thrown', path.isError);
      else path.prove(error.message, 'false');
    }
  }));
}

const list = (length, element) => Array.from({ length }, (_, i) => element(i));
const equal = (x, y) => `(= ${x} ${y})`;
const implies = (x, y) => `(=> ${x} ${y})`;
const not = (x) => `(not ${x})`;
const all = (terms) => `(and true ${terms.join(' ')})`;
const either = (terms) => `(or false ${terms.join(' ')})`;
// What a function returns, as a term.
function termOf(m, v, expected = 'number') {
  if (typeof v === 'boolean') return `${v}`;
  const { type, term, infinite } = m.known(v);
  return type === 'boolean' || (type === expected && infinite === 'false') ? term : m.fail();
}
// The number of these digits, the least significant first: as a term, and in an example.
const sum = (digits, base) => `(+ 0 ${digits.map(({ term }, i) => `(* ${base ** BigInt(i)} ${term})`).join(' ')})`;
const total = (digits, base, value) => digits.reduceRight((n, digit) => n * base + value(digit), 0n);
const stringOf = (units, value) => JSON.stringify(String.fromCharCode(...units.map((unit) => Number(value(unit)))));

// ---- Numbers and their digits

const DIGITS = '0123456789ABCDEFGHIJKLMNOPQRSTUVWXYZabcdefghijklmnopqrstuvwxyz';
const GROUP = 62n ** 4n;
const MOST = power(128) - 1n;
const MOST_OF_NUMBERS = power(53) - 1n;

function splits(m, path, count, number) {
  path.prove('the count is a Number', `${Number.isInteger(count)}`);
  const groups = m.values.groups.cells.map(m.known, m);
  for (const { term } of groups) path.prove('a group is a digit in base 62**4', range(term, 0n, GROUP - 1n));
  path.prove('the groups are the digits of the number', equal(number, sum(groups, GROUP)));
  const [least, end] = [count === 1 ? 0n : 62n ** BigInt(count - 1), 62n ** BigInt(count)];
  path.prove('the count is that of the digits', range(number, least, end - 1n));
}

// The number of any words, which an example gives to a function by a UUID.
function numberOfWords(m, path, show) {
  const words = m.open('words', false);
  path.show = (value) => show(`encodeUuid('${total(words, power(32), value).toString(16).padStart(32, '0')}')`);
  return sum(words, power(32));
}

prove('splitInteger', ({ splitInteger }, m, path) => {
  m.open('groups');
  const number = path.input(0n, MOST_OF_NUMBERS);
  path.show = (value) => `[encode(2n ** 127n), encode(${value(number)}), encodeKey(${value(number)})]`;
  splits(m, path, splitInteger(number), number.term);
});

prove('splitWords', ({ splitWords }, m, path) => {
  m.open('groups');
  const number = numberOfWords(m, path, (encoded) => encoded);
  splits(m, path, splitWords(), number);
});

prove('splitBigInt', ({ splitBigInt }, m, path) => {
  m.open('groups');
  m.open('words');
  const number = path.input(undefined, undefined, 'bigint');
  path.show = (value) => `[encode(2n ** 127n), encode(${value(number)}n), encodeKey(${value(number)}n)]`;
  const count = splitBigInt(number);
  path.prove('0 is for numbers out of range', equal(`${count !== 0}`, range(number.term, 0n, MOST)));
  if (count !== 0) splits(m, path, count, number.term);
});

prove('bigIntOfWords', ({ bigIntOfWords }, m, path) => {
  const number = numberOfWords(m, path, (encoded) => `decode(${encoded})`);
  path.prove('the BigInt is the number', equal(termOf(m, bigIntOfWords(), 'bigint'), number));
});

prove('integerOfWords', ({ integerOfWords }, m, path) => {
  const number = numberOfWords(m, path, (encoded) => `decodeNumber(${encoded})`);
  const expected = `(ite (<= ${number} ${MOST_OF_NUMBERS}) ${number} (- 1))`;
  path.prove('the Number is the number, or -1', equal(termOf(m, integerOfWords()), expected));
});

// ---- Digits of a string

// A code unit or byte, with its digit, which is Infinity if it is not in the alphabet.
function unitOf(path, most) {
  const [isOther, digit] = [path.input(0n, 1n), path.input(0n, 61n)];
  const code = (value) => (value(isOther) ? 45n : BigInt(DIGITS.charCodeAt(Number(value(digit)))));
  return Object.assign(
    path.unknown(0n, most), { code, digit: integer(digit.term, 0n, 61n, 'number', equal(1, isOther.term)) });
}

const bytesOf = (units) => arrayOf(Object.assign([...units], { bits: 8 }), 8);
const KINDS = [['string', 65535n, textOf], ['bytes', 255n, bytesOf]];

for (const [kind, most, textOfKind] of KINDS)
  for (const start of [0, 7])
    for (let length = 0; length <= 22; length++)
      prove(`readDigits: ${length} digits of a ${kind} from ${start}`, ({ readDigits }, m, path) => {
        const words = m.open('words');
        const units = list(start + length + (start > 0 ? 2 : 0), () => unitOf(path, most));
        const read = units.slice(start, start + length);
        m.stubs.digitOf = (unit) => unit.digit;
        // Zeros are skipped in a string of more than 22 digits.
        const zeros = start > 0 ? `'${'0'.repeat(23)}' + ` : '';
        path.show = (value) => `decode(${zeros}${stringOf(read, ({ code }) => code(value))})`;
        const isRead = termOf(m, readDigits(textOfKind(units), start, start + length));
        const digits = read.map(({ digit }) => digit).reverse();
        const isNumber = all([`(<= ${sum(digits, 62n)} ${MOST})`, ...digits.map(({ infinite }) => not(infinite))]);
        path.prove('it returns true exactly if all are digits of a number below 2**128', equal(isRead, isNumber));
        path.prove('the words are the number', implies(isRead, equal(sum(words, power(32)), sum(digits, 62n))));
      });

for (const [kind, most, textOfKind] of KINDS)
  prove(`indexOfInvalid: a ${kind}`, ({ indexOfInvalid }, m, path) => {
    const [units, length] = [list(22, () => unitOf(path, most)), path.input(0n, 22n)];
    path.show = (value) => `decode(${stringOf(units.slice(0, Number(value(length))), ({ code }) => code(value))})`;
    m.stubs.digitOf = (unit) => unit.digit;
    const index = indexOfInvalid(textOfKind(units), 0, length);
    path.prove('it is at most the length', `(<= ${index} ${length.term})`);
    path.prove('before it are digits', all(units.slice(0, index).map(({ digit }) => not(digit.infinite))));
    path.prove('at it is none', either([equal(index, length.term), units[index]?.digit.infinite ?? '']));
  });

prove('digitOf', ({ digitOf }, m, path) => {
  path.lines.push('(declare-fun digit (Int) Int)', '(declare-fun other (Int) Bool)', '(assert (other 128))');
  m.values.digits.lookup = ({ term }) => integer(`(digit ${term})`, 0n, 61n, 'number', `(other ${term})`);
  const unit = path.input(0n, 65535n);
  path.show = (value) => `decode(${stringOf([unit], value)})`;
  const { type, term, infinite } = digitOf(unit);
  path.prove('a Number, of a table of such', `${type === 'number' && m.values.digits.kind === 'Float'}`);
  path.prove('it is Infinity exactly for others', equal(infinite, `(or (other ${unit.term}) (> ${unit.term} 127))`));
  path.prove('it is the digit', implies(not(infinite), equal(term, `(digit ${unit.term})`)));
});

for (let count = 1; count <= 22; count++)
  prove(`stringOfGroups: ${count} characters`, ({ stringOfGroups }, m, path) => {
    path.lines.push('(declare-fun pair (Int) Int)');
    const lookup = ({ term }) => {
      path.assume(range(`(pair ${term})`, 0n, power(16) - 1n));
      return integer(`(pair ${term})`, 0n, power(16) - 1n);
    };
    m.open('codes');
    const groups = m.open('groups', false);
    groups.forEach((group, i) => groups[i] = path.input(0n, GROUP - 1n));
    path.show = (value) => {
      const number = total(groups, GROUP, value);
      return `[encodeFixed(${number % 62n ** BigInt(count)}n, ${count}), encodeKey(${number % 62n ** 21n}n)]`;
    };
    // Least significant first. The high byte of a pair is the code of its low digit.
    const codes = groups.flatMap((group) => [...path.divide(group, 62n ** 2n)].reverse())
                    .flatMap((pair) => path.divide(lookup(pair), 256n));
    const pairs = Object.assign(arrayOf([], 16), { length: 62 ** 2, lookup });
    const { units } = stringOfGroups(count, pairs);
    path.prove('its length', `${units.length === count}`);
    units.forEach((unit, i) => path.prove('the code of a digit', equal(termOf(m, unit), codes[count - 1 - i].term)));
  });

// ---- UUIDs

const HYPHENS = [8, 13, 18, 23];

// Code units, with the values of their hexadecimal digits, or -2**16.
function hexUnits(path, length) {
  const units = list(length, () => path.input(0n, 65535n));
  path.show = (value) => `encodeUuid(${stringOf(units, value)})`;
  for (const unit of units) {
    const value = [[48n, 57n, 48], [65n, 70n, 55], [97n, 102n, 87]].reduce(
      (others, [low, high, less]) => `(ite ${range(unit.term, low, high)} (- ${unit.term} ${less}) ${others})`,
      '(- 65536)');
    unit.hex = integer(path.define(value), -power(16), 15n);
  }
  return units;
}

const areHex = (digits) => all(digits.map(({ term }) => `(<= 0 ${term})`));
const hexIndex = (m, unit) => m.call('', Math.min, undefined, unit, 128);

prove('HEX_VALUES', (functions, m, path) => {
  const [unit] = hexUnits(path, 1);
  path.show = (value) => `encodeUuid('FFF' + ${stringOf([unit], value)} + '${'0'.repeat(28)}')`;
  list(128, (code) => code).find((code) => path.decide(equal(unit.term, code)));
  const value = m.read(['HEX_VALUES', ''], m.values.HEX_VALUES, hexIndex(m, unit));
  path.prove('the value of a digit, or -2**16', equal(termOf(m, value), unit.hex.term));
});

// The table, of these units.
function useHexValues(m, units) {
  m.values.HEX_VALUES.lookup = (index) => units.find((unit) => hexIndex(m, unit).term === index.term)?.hex ?? m.fail();
}

for (let start = 0; start <= 41; start++)
  prove(`readHex: from ${start}`, ({ readHex }, m, path) => {
    const units = hexUnits(path, start + 4);
    path.show = (value) => `encodeUuid(${stringOf(units.slice(start), value)} + '${'0'.repeat(28)}')`;
    useHexValues(m, units);
    const term = termOf(m, readHex(textOf(units), start));
    const digits = units.slice(start).map(({ hex }) => hex).reverse();
    path.prove('it is negative exactly if one is no digit', equal(`(<= 0 ${term})`, areHex(digits)));
    path.prove('the value of four digits', implies(areHex(digits), equal(term, sum(digits, 16n))));
  });

// A unit is a character in lowercase or uppercase.
const isCharacter = ({ term }, c) => either([c, c.toUpperCase()].map((form) => equal(term, form.charCodeAt())));

// The length tells the form: 32 digits or 36 characters, alone, in braces or after urn:uuid:.
for (let length = 0; length <= 45; length++)
  prove(`readUuidString: ${length} characters`, ({ readUuidString }, m, path) => {
    const words = m.open('words');
    const units = hexUnits(path, length);
    useHexValues(m, units);
    const isRead = termOf(m, readUuidString(textOf(units)));
    const [start, end] = length > 38 ? ['urn:uuid:', ''] : [34, 38].includes(length) ? ['{', '}'] : ['', ''];
    const others = new Map([...start, ...end].map((c, i) => [i < start.length ? i : length - 1, c]));
    if (length - others.size === 36) HYPHENS.forEach((i) => others.set(start.length + i, '-'));
    const digits = units.filter((unit, i) => !others.has(i)).map(({ hex }) => hex).reverse();
    const areOthers = Array.from(others, ([i, c]) => isCharacter(units[i], c));
    const isUuid = digits.length === 32 ? all([areHex(digits), ...areOthers]) : 'false';
    path.prove('it returns true exactly for a UUID', equal(isRead, isUuid));
    for (const [i, { term }] of words.entries())
      path.prove('the words are the digits', implies(isUuid, equal(term, sum(digits.slice(8 * i, 8 * i + 8), 16n))));
  });

prove('readUuidBytes', ({ readUuidBytes }, m, path) => {
  const words = m.open('words');
  const bytes = list(16, () => path.input(0n, 255n));
  path.show = (value) => `encodeUuid(Uint8Array.of(${bytes.map(value)}))`;
  readUuidBytes(bytesOf(bytes));
  path.prove('the words are the bytes', equal(sum(words, power(32)), sum([...bytes].reverse(), 256n)));
});

prove('uuidOfWords', ({ uuidOfWords }, m, path) => {
  numberOfWords(m, path, (encoded) => `decodeUuid(${encoded})`);
  const words = m.values.words.cells;
  const digits = words.flatMap((word) => list(8, (i) => path.divide(path.divide(word, 16n ** BigInt(i))[0], 16n)[1]));
  const expected = digits.reverse().map(({ term }) => `(+ ${term} (ite (< ${term} 10) 48 87))`);
  for (const i of HYPHENS) expected.splice(i, 0, '45');
  const { units } = uuidOfWords();
  path.prove('its length', `${units.length === 36}`);
  units.forEach((unit, i) => path.prove(`character ${i} is a digit or a hyphen`, equal(termOf(m, unit), expected[i])));
});

// ---- Alphabets, choices and ranges

// A module that changes what it shares with others fails here.
[Math, Number, String, Object, Array, String.prototype, Array.prototype, Object.prototype].forEach(Object.freeze);
const { Alphabet } = await import(`${folder}/index.js`);
prove('Alphabet', (functions, m, path) => {
  const swapped = DIGITS.replace(/[a-z]/gi, (c) => (c < 'a' ? c.toLowerCase() : c.toUpperCase()));
  path.prove('the standard one', `${Alphabet.standard.characters === DIGITS}`);
  path.prove('the alternative one', `${Alphabet.alternative.characters === swapped}`);
});

// The codes of any alphabet, and one that it does not have.
function alphabetOf(m, path) {
  const [other, ...codes] = list(63, (i) => path.input(0n, i === 0 ? 128n : 127n));
  m.distinct = [other, ...codes].map(({ term }) => term);
  path.assume(`(distinct ${m.distinct.join(' ')})`);
  return [codes, (value) => `new Alphabet(${stringOf(codes, value)})`, other];
}

prove('createDigits', ({ createDigits }, m, path) => {
  const [codes, alphabet, other] = alphabetOf(m, path);
  const shown = () => (path.open.endsWith('others') ? [other] : codes);
  path.show = (value) => `Array.from(${stringOf(shown(), value)}, (c) => decode(c, ${alphabet(value)}))`;
  const digits = createDigits(textOf(codes));
  const digitOf = (code) => m.read(['digits', ''], digits, code);
  path.prove('its length', `${digits.length === 129}`);
  path.prove('the digit of each code', all(codes.map((code, digit) => equal(termOf(m, digitOf(code)), digit))));
  path.prove('it is Infinity for others', digitOf(other).infinite);
});

prove('createPairs', ({ createPairs }, m, path) => {
  const [codes, alphabet] = alphabetOf(m, path);
  path.show = (value) => `encode(2n ** 127n, ${alphabet(value)})`;
  const pairs = createPairs(textOf(codes));
  path.prove('its length', `${pairs.length === 62 ** 2}`);
  for (const [high, { term }] of codes.entries())
    path.prove('the codes of a pair',
      all(codes.map((code, low) => equal(
                      termOf(m, m.read(['pairs', ''], pairs, 62 * high + low)), `(+ ${term} (* 256 ${code.term}))`))));
});

const TYPES =
  [['bigint', MOST], ['number', MOST_OF_NUMBERS, -MOST_OF_NUMBERS, MOST_OF_NUMBERS], ['double', -1n, 0n, 0n]];
for (const [type, most, ...bounds] of TYPES)
  prove(`splitNumber: ${type}`, ({ splitNumber }, m, path) => {
    const number = Object.assign(path.input(...bounds), { type });
    path.show = (value) => `encode(${type === 'double' ? 0.5 : value(number)}${type === 'bigint' ? 'n' : ''})`;
    const isValid = range(number.term, 0n, most);
    path.isError = not(isValid);
    const count = path.unknown(0n, 22n);
    path.assume(equal(equal(0, count.term), path.isError));
    m.stubs.splitBigInt = (given) => given === number && type === 'bigint' ? count : m.fail();
    m.stubs.splitInteger = (given) => {
      path.prove('splitInteger is for integers from 0 to 2**53 - 1', isValid);
      return given === number && type === 'number' ? count : m.fail();
    };
    path.prove('it returns the count of digits', `${splitNumber(number) === count}`);
    path.prove('it throws an error for numbers out of range', isValid);
  });

// Whether the string of this width has a prefix: its number is that of the prefix, before `others` more digits.
function hasPrefix(number, width, length, digits) {
  const others = `(- ${width} ${length})`;
  const forms = list(22, (i) => {
    const [count, least] = [62n ** BigInt(i), `(* ${62n ** BigInt(i)} ${digits})`];
    return all([equal(others, i), `(<= ${least} ${number})`, `(< ${number} (+ ${least} ${count}))`]);
  });
  return all([`(> ${width} 0)`, either([`(and (>= ${others} 22) (= 0 ${digits}))`, ...forms])]);
}

// Of the functions that read the prefix, the number of its digits and whether all are digits are what is proved of them.
for (let length = 0; length <= 22; length++)
  prove(`prefixRange: ${length} units`, ({ prefixRange }, m, path) => {
    const [isAll, digits] = [path.input(0n, 1n), path.input(0n, 62n ** BigInt(length) - 1n, 'bigint')];
    const [width, number] = [path.input(0n, MOST_OF_NUMBERS), path.input(0n, MOST)];
    path.show = (value) => {
      const text = list(length, (i) => DIGITS[value(digits) / 62n ** BigInt(i) % 62n]).reverse().join('');
      return `prefixRange('${value(isAll) ? text : text.replace(/.$/, '-')}', ${value(width)})`;
    };
    const [prefix, areDigits] = [Object.assign(textOf([]), { length }), equal(1, isAll.term)];
    path.isError = not(areDigits);
    const isRead = all([areDigits, `(<= ${digits.term} ${MOST})`]);
    const index = path.unknown(0n, BigInt(length));
    path.assume(equal(equal(index.term, length), areDigits));
    let used;
    m.stubs.use = (alphabet) => used = alphabet;
    const give = (v) => (text, start, end) =>
      text === prefix && start === 0 && end === length && used === m.values.standard ? v : m.fail();
    m.stubs.readDigits = give(new Unknown({ type: 'boolean', term: isRead }));
    m.stubs.indexOfInvalid = give(index);
    m.stubs.bigIntOfWords = () => digits;
    const result = prefixRange(prefix, width);
    path.prove('it throws an error if a character is invalid', areDigits);
    const [first, last] = (result ?? []).map((end) => termOf(m, end, 'bigint'));
    const isIn = result === null ? 'false' : `(<= ${first} ${number.term} ${last})`;
    const isExpected = hasPrefix(number.term, width.term, length, digits.term);
    path.prove('the numbers of this width that have the prefix', equal(isIn, isExpected));
    if (result) path.prove('both ends are numbers', `(<= 0 ${first} ${last} ${MOST})`);
  });

for (const name of ['keyRange', 'keyBounds'])
  prove(name, (functions, m, path) => {
    const isNone = path.decide(equal(1, path.input(0n, 1n).term));
    path.show = () => `${name}('${isNone ? 8 : 0}')`;
    const [prefix, ...ends] = list(3, () => path.unknown(0n, MOST));
    m.stubs.prefixRange = (text, width) => text !== prefix || width !== 22 ? m.fail() : isNone ? null : ends;
    m.stubs.encodeKey = (number) => Object.assign(textOf([]), { number });
    const result = functions[name](prefix);
    const numbers = name === 'keyRange' ? result : result?.map(({ number }) => number);
    const isRight = isNone ? result === null : numbers.length === 2 && ends.every((end, i) => numbers[i] === end);
    path.prove('both ends for the prefix of a key, or null', `${isRight}`);
  });

prove('encodeKey', ({ encodeKey }, m, path) => {
  const number = path.input(0n, MOST, 'bigint');
  path.show = (value) => `encodeKey(${value(number)}n)`;
  const key = textOf([]);
  m.stubs.splitNumber = (given) => given === number ? path.unknown(1n, 22n) : m.fail();
  m.stubs.use = (alphabet) => alphabet === m.values.standard ? alphabet : m.fail();
  m.stubs.stringOfGroups = (count, pairs) => count === 22 && pairs === m.values.standard ? key : m.fail();
  path.prove('the 22 lowest digits of a number', `${encodeKey(number) === key}`);
});

// ---- The results

let passed = 0, failed = 0, done = 0;
function report(line) {
  failed++;
  console.log(line);
}
function end() {
  console.log(`${passed} passed, ${failed} failed`);
  process.exit(Number(failed > 0 || passed === 0));
}
const statements = readFileSync(new URL('README.md', import.meta.url), 'utf8').match(/## What is proved\n[^#]*/)[0];
const namesOf = (names) => [...new Set(names)].sort().join(', ');
const [named, proved] =
  [statements.match(/(?<=`)\w+(?=`)/g), paths.map(({ name }) => name.match(/\w+/)[0])].map(namesOf);
if (named !== proved) report(`README.md names ${named}; proved are ${proved}`);
// Most mistakes are seen on a short path.
paths.sort((x, y) => x.lines.length - y.lines.length);
await solve(paths, ({ name, passed: count, open, example }) => {
  if (++done % 100 === 0) console.error(`${done} of ${paths.length} paths`);
  passed += count;
  const shown = example ? `; in Node: Object.assign(globalThis, await import('${folder}/index.js')), ${example}` : '';
  if (open) report(`${name}: not proved: ${open}${shown}`);
  if (example) end();
});
for (const name of new Set(paths.map(({ name }) => name)))
  if (failed === 0 && !paths.some((path) => path.name === name && path.isPossible))
    report(`${name}: not proved: a path that is possible`);
end();
