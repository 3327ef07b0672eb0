// Compares the rules with Node on border values and random ones: that a function returns what Node returns is proved where
// it has to be, and nowhere else.
import assert from 'node:assert/strict';
import {test} from 'node:test';

import {read} from './forms.mjs';
import {explore, integer, literal, power, range, solve} from './path.mjs';
import {Machine, textOf} from './rules.mjs';

const ARRAYS =
  `const halves = new BigUint64Array(2), words = new Uint32Array(halves.buffer), groups = new Int32Array(2);
const times = (count, v) => Array(count).fill(v);
const table = new Int32Array([5, ...times(47, -1), 0, 1, 2, 3, 4, 5, 6, 7, 8, 9, -3, -2, -1, 0, ...times(38, 7), 5, ...times(28, 7)]);`;
// The same ones in each run, so that a failure comes again.
let state = 62n;
function random(bits) {
  state = (state * 6364136223846793005n + 1442695040888963407n) % 2n ** 64n;
  return Number(state >> BigInt(64 - bits));
}
const borders = [53, 8, 16, 31, 32, 48].flatMap((bits) => [2 ** bits - 1, 2 ** bits, -(2 ** bits)]);
const numbers =
  [Infinity, ...borders, 0, -0, 1, -1, 61, 129, 2 ** 32 + 5, -(2 ** 31) - 1, random(8), random(32), random(53)];
const bigInts =
  [...borders.map(BigInt), 0n, -1n, 2n ** 64n - 1n, 2n ** 64n, 2n ** 128n, -(2n ** 200n), BigInt(random(53)) ** 3n];

const isFinite = (...values) => values.every(Number.isFinite);
// The integer of a Number's term. Infinity has one too.
const integerOf = (v) => (v === Infinity ? 5n : BigInt(v));
const isExact = (n) => -(2n ** 53n) <= n && n <= 2n ** 53n;
const isDividend = (x) => x >= 0 && (x <= 2 ** 53 || x === Infinity);
// What has to be proved of Numbers x and y, and when.
const OF_NUMBERS = [
  [(x, y) => isExact(integerOf(x) + integerOf(y)), 'x + y'], [(x) => isExact(integerOf(x) * 62n), 'x * 62'],
  [(x, y) => isFinite(y) && isExact(integerOf(x) - integerOf(y)), 'x - y'], [(x) => isFinite(x), 'Math.min(x, 128)'],
  [isDividend, 'Math.floor(x / 62)', '(x / 4096) >> 0', '(x / 3844) & 0xffff', 'words[0] = x / 65536; return words[0]'],
  [(x) => x >= 0 && x < 3, '[5, y, 62][x]'],
  [(x) => x >= 0 && x < 129, 'table[x]', 'const t = new Float64Array(times(129, Infinity)); t[x] = y; return t[x]'],
  [(x) => isFinite(x) && x >= 0, 'table[Math.min(x, 128)]'],
  [
    () => true, 'Math.floor(x)', 'Number.isSafeInteger(x)', '(x & 1) === 1', 'x & 255', 'x & 0x7fffffff', 'x >> 0',
    'x !== 61', 'x === y', 'x >> 5', 'x >>> 0', 'x >>> 21', 'x < y', 'x <= y', 'x > y', 'x >= y', '!(x < 61)',
    'x < 61 && y < 61', 'x < 61 || y < 61', 'x < 61 ? 5 : 6', 'String.fromCharCode(x, 45).charCodeAt(0)',
    'String.fromCharCode(45, 46, x).slice(1).charCodeAt(1)', 'String.fromCharCode(x, 65581).charCodeAt(1)',
    'const a = x >>> 0; return x >> 0', 'const a = x & 1; return x & 255', 'words[1] = x; return words[1]',
    'groups[1] = x; return groups[1]', 'const t = new Uint16Array(9); t[2] = y; t[1] = x; return t[1] + t[2]',
    'words[1] = x; words[0] = y; return halves[0]'
  ],
  [
    () => false, 'x * y', 'x * -3', 'x * 0', 'Number.isSafeInteger(x / 62)', 'Math.min(x, 128, 60)', 'Math.min(x, y)',
    'x.low', 'x / 62', 'Math.floor(x / 0)', 'Math.floor(62 / x)', 'Math.floor(x / -62)', 'Math.floor(x / 1.5)', 'x & 5',
    'x & -1', 'x & 14', 'x & 0xffffffff', 'x >> 32', 'x + 1n', 'x + undefined', 'x + 0.5', 'x % 62', '`${x}`',
    'String.fromCharCode(x).charCodeAt(1)', "String.fromCharCode('45', x).charCodeAt(0)",
    'String.fromCharCode(45n, x).charCodeAt(1)', 'x < 61 ? -0 : -0',
    'const t = new Float64Array(9); t[x] = 5; return t[y]', 'new Uint16Array(2, x)', 'new Uint16Array(9).fill(x)[0]',
    'new Uint16Array([x])[0]', 'Array(x)[0]', 'x | y', 'x << 5', 'x / 62 < y', 'x > -Infinity', 'new Int8Array(5)[0]',
    'words[x]', 'words[4] = x', 'table[0] = x', 'halves[0] = x', 'words[0] = 5n', 'x == y', 'Math.abs(x)',
    '[x].includes(y)', 'x ?? y', 'x ** 2'
  ]
];
const OF_BIGINTS = [
  [
    () => true, 'x + y', 'x - y', 'x * 5n', 'x >> 64n', 'x << 64n', 'x < y', 'x <= y', 'x > y', 'x >= y', 'x === y',
    'halves[1] = x; return halves[1]', 'Number.isSafeInteger(x)', 'halves[1] = x; return words[3]',
    'halves[0] = x; return (y << 64n) | halves[0]'
  ],
  [(x, y) => y >= 0n && y < 128n, '(x << 7n) | y'],
  [
    () => false, 'x * y', 'x / 5n', 'x >>> 1n', 'x & 1n', 'x << -1n', 'x << y', 'x | 1n', '1n | (x << 1n)', 'x + 1',
    'words[0] = x', 'halves[2] = x', 'Math.floor(x)'
  ]
];
// Two that are not ASCII have a lowercase form that is, or that begins with such.
const strings = ['', '{', 'ab', 'xab', 'aB', '}{', 'ij', 'IJ', '\u0130j', '\u0130', 'i', 'ijj', 'i\u0307', 'i\u212a'];
const OF_STRINGS = [
  [(x) => x.length > 0, 'x.charCodeAt(0.9)'],
  [
    () => true, "x.toLowerCase() === 'ij'", "x.toLowerCase() === ''", "x.slice(0, 2).toLowerCase() === 'ab'",
    "x.slice(1, -1).toLowerCase() === 'a'", 'x.length', 'Number.isSafeInteger(x)', "typeof x === 'string'"
  ],
  [
    () => false, "('0' + x).length", "x.startsWith('a')", 'x.toLowerCase()', "x.toLowerCase() === 'k'",
    "x.toLowerCase() === '\u0130'", "x.toLowerCase().slice(1) === 'j'", "x === 'ij'", 'x + y', 'x.toUpperCase()',
    'x.charCodeAt(62)'
  ]
];
const OF_DOUBLES = [
  [() => true, 'Number.isSafeInteger(x)', "typeof x === 'number'"],
  [() => false, 'x + 1', 'x < 5', 'Math.floor(x)', 'Math.min(x, 5)', 'x & 1', 'words[0] = x', 'table[x]']
];
const BODIES = [
  'let sum = 0; for (let i = 0; i < 3; i++) { if (x > i) sum = sum + 2; else sum--; } return sum;',
  'let i = 2; i--; i++; i++; return i * 62;',
  'let i = 3; while (i > 0 && x < i) { const y = i - 1; i = y; } return [i, 4 * i][1];',
  'const [a, b] = [x & 255, y]; if (a < 61) { if (b < 5) return 1; return 2; } return a;'
];

// Modules and functions in them that are an error with file and line.
const REFUSED = [
  ['let last = -1;', 'return last;'], ['const cache = new Map();', 'return cache.size;'],
  ["import {words as w} from './test.js';", 'return 1;'], ["import {w} from './other.js';", 'return 1;'],
  ['const g = async () => 1;', 'return g();'], ['const signed = new Int32Array(halves.buffer);', 'return signed[0];'],
  ['const upper = words.subarray(1);', 'return upper[0];'], ['', 'var y = 1; var y; return y;'],
  ['const g = () => 5;', 'return g(); function g() { return 1; }'], ['', 'return arguments[0];'],
  ['', 'return x.toString();'], ['', "return words.hasOwnProperty('0');"], ['', 'label: return 1;'],
  ['', 'return (1, x);'], ['const list = [5];', 'return list.length;'], ['', 'return typeof Buffer;'],
  ["const has = typeof Buffer === 'function';", 'return has ? 1 : 2;'],
  ['const has = !!globalThis.Buffer;', 'if (has) return 1; return 2;'], ['const now = Date.now();', 'return now < 5;'],
  ["const is = 'fromHex' in Uint8Array ? 1 : 0;", 'return is;'],
  ["const is = Array['fromAsync'] ? 1 : 0;", 'return is;'], ['const zone = new Date(70, 0) - 0;', 'return zone;'],
  ["const order = 'a'.localeCompare('B');", 'return order;'],
  ['const Float64Array = Uint8Array;', 'return new Float64Array(1)[0];'],
  ['const b = new ArrayBuffer(4), t = new Uint8Array(b), s = new Int8Array(b);', 'return t[0];'],
  ['const t = new Uint8Array(1), g = () => { const [a] = [t]; a[0] = 5; };', 'return t[0];'],
  ['const list = [[5]], inner = list[0];', 'return inner[0];'], ['', 'return Math.min(x, -0);'],
  ['const g = ({ a }) => a;', 'return 1;'], ['', "let s = '5'; s++; return s;"],
  ['', 'let i; for (i = 0; ;) return i;'], ['const t = new Uint8Array(1); t[0] = Date.now();', 'return t[0];'],
  ['const t = new Uint8Array(1); t[0] = Date.now(); const u = t[0];', 'return u;'],
  ['const t = new Uint8Array(1); t[0] = Date.now(); const u = new Uint8Array(t.buffer), v = u[0];', 'return v;'],
  ['', 'let s = 1; s += 5; return s;'], ['', 'let i = 1; return ++i;'], ['', 'let i = 1; return i++ + 1;'],
  ['', 'return 0 ?? 5;'], ['', 'return words[4];'], ['function* g() { return 1; }', 'return g();'],
  ['const g = () => 1; g.state = 5;', 'return g.state;'],
  ['const g = (process) => process;', "return process['argv'].length;"],
  ["const charCodeAt = ''.codePointAt.call.bind(''.codePointAt);", "return charCodeAt('A', 0);"],
  ['const upper = new Uint32Array(halves.buffer, 4);', 'return upper[0];'],
  ['', 'const t = new Uint16Array(4), u = new Uint32Array(t.buffer); t[x & 3] = 5; u[0] = 65543; return t[0];'],
  ['const t = new Uint8Array(1);', 't[0] = 5; return t[0];']
];
// What writes a table later, or may.
const WRITES = [
  '() => uses[0] |= 1', '() => uses[0]++', '() => { [uses[0]] = [1]; }', '() => uses.fill(1)', "() => uses['fill'](1)",
  '(i) => uses[i](1)', '(i) => uses[i].state', '(g) => g(uses)', '() => { const a = uses; a[0]++; }',
  '() => { const a = uses; const b = a; b[0]++; }', '(a = uses) => a[0]++', '() => { const [a = uses] = []; a[0]++; }',
  '[() => { uses[0] = 1; }]', "() => eval('uses[0] = 1')", '[uses]', 'uses.buffer'
];
for (const value of WRITES) REFUSED.push([`const uses = new Uint8Array(1), g = ${value};`, 'return uses[0];']);

const drawBounds = () => [BigInt(random(9)), BigInt(random(9))];

// An unknown value that is this one, with bounds at these distances.
function unknown(path, value, [below, above] = drawBounds()) {
  if (typeof value === 'string') return textOf([...value].map((unit) => unknown(path, unit.charCodeAt(0))));
  if (typeof value === 'number' && value % 1 !== 0 && value !== Infinity)
    return Object.assign(path.unknown(0n, 0n), { type: 'double' });
  const n = integerOf(value);
  const bounds = typeof value === 'bigint' ? [undefined, undefined] : [n - below, n + above];
  const v = path.unknown(...bounds, typeof value);
  path.assume(`(= ${v.term} ${literal(n)})`);
  return integer(v.term, v.low, v.high, v.type, `${value === Infinity}`);
}

// Whether the paths are proved on which the function returns this for these values. Where Node throws an error, none is.
function isResult(m, result, expected) {
  if (expected === undefined) return 'false';
  const { type, term, infinite, low, high } =
    typeof result === 'boolean' ? { type: 'boolean', term: `${result}` } : m.known(result);
  if (type !== typeof expected) throw new Error(type);
  if (type === 'boolean') return `(= ${term} ${expected})`;
  const isInBounds = low === undefined ? 'true' : range(term, low, high);
  if (expected === Infinity) return `(and ${infinite} ${isInBounds})`;
  return type === 'number' && !Number.isInteger(expected) ?
    'false' :
    `(and (not ${infinite}) (= ${term} ${literal(BigInt(expected))}) ${isInBounds})`;
}

// A rule rejects what it does not cover by an error or an open goal of its own.
async function compare(body, values, covers) {
  const modules = read([['test.js', `${ARRAYS}\nfunction f(x, y) { ${body} }`]]);
  const inNode = new Function('x', 'y', `${ARRAYS}\n${body}`);
  const cases = values.map(([x, y]) => {
    const bounds = [drawBounds(), drawBounds()];
    let expected, paths = [];
    try {
      expected = inNode(x, y);
    } catch { expected = undefined; }
    try {
      paths = explore((path) => {
        const m = new Machine(modules, path);
        ['words', 'groups'].forEach((name) => m.open(name));
        path.prove(
          'result', isResult(m, m.functions.f(unknown(path, x, bounds[0]), unknown(path, y, bounds[1])), expected));
      });
    } catch { paths = []; }
    return [x, y, expected, paths];
  });
  await solve(cases.flatMap(([, , , paths]) => paths));
  for (const [x, y, expected, paths] of cases) {
    const open = paths.flatMap((path) => path.open ?? []);
    let found = open.length === 0 && paths.some(({ isPossible }) => isPossible) ? 'proved' : 'wrong';
    if (paths.length === 0 || open.some((goal) => goal !== 'result')) found = 'rejected';
    assert.equal(found, covers(x, y, expected) ? 'proved' : 'rejected', `${body}: ${x}, ${y}: ${expected}`);
  }
}

const pairs = (values) => values.map((x, i) => [x, values[i < 4 ? 0 : random(8) % values.length]]);
for (const [groups, values] of [
       [OF_NUMBERS, numbers], [OF_BIGINTS, bigInts], [OF_STRINGS, strings], [OF_DOUBLES, [0.5, NaN, -1.5]]])
  for (const [covers, ...expressions] of groups)
    for (const expression of expressions)
      test(`${expression} of ${typeof values[0]}s`,
        () => compare(`${expression.includes('return') ? '' : 'return '}${expression};`, pairs(values), covers));
for (const [module, body] of REFUSED)
  test(`refused: ${module} ${body}`, () => assert.throws(() => {
    const modules = read([['test.js', `${ARRAYS}\n${module}\nfunction f(x) { ${body} }`]]);
    explore((path) => {
      const m = new Machine(modules, path);
      ['words', 'groups'].forEach((name) => m.open(name));
      m.binary(['test.js:1', 'f'], '-', m.functions.f(unknown(path, 5)), 1);
    });
  }, /^Error: test\.js:\d+: no rule for (this$|`.+`$)/));
const branch = (path) => '0123456789'.replace(/./g, () => path.decide('true'));
test('too many paths are an error', () => assert.throws(() => explore(branch), /1000 paths/));
for (const body of BODIES) test(body, () => compare(body, pairs(numbers.filter((n) => isFinite(n))), () => true));
// z3 does not find the three.
function isSumOfCubes(path) {
  const cubes = [path.unknown(), path.unknown(), path.unknown()].map(({ term }) => `(* ${term} ${term} ${term})`);
  return `(= 33 (+ ${cubes.join(' ')}))`;
}
test('a path ends at its first open goal, with an example, and is possible if z3 finds values', async () => {
  const paths = explore((path) => {
    const x = path.input(0n, 5n);
    path.show = (value) => `${path.open}: f(${value(x)})`;
    path.prove('known', '(= 5 5)');
    if (path.decide(`(< ${x.term} 5)`)) path.prove('unknown', `(< ${x.term} 4)`);
    path.prove('cubes', `(not ${isSumOfCubes(path)})`);
  });
  const others = ['false', isSumOfCubes, 'true'].map(
    (term) => explore((path) => path.assume(typeof term === 'string' ? term : term(path)))[0]);
  await solve([...paths, ...others]);
  assert.deepEqual(
    paths.map(({ open, example }) => [open, example]), [['unknown', 'unknown: f(4)'], ['cubes', undefined]]);
  assert.deepEqual(others.map(({ isPossible }) => isPossible), [false, false, true]);
});
test('an open array can have all elements', async () => {
  const modules = read([['test.js', `${ARRAYS} const f = () => groups[0] + words[0];`]]);
  const ends = [['words', 0n], ['words', power(32) - 1n], ['groups', -power(31)], ['groups', power(31) - 1n]];
  const paths = ends.flatMap(([name, end]) => explore((path) => {
    const are = new Machine(modules, path).open(name).map(({ term }) => `(= ${term} ${literal(end)})`);
    path.prove('open', `(not (and ${are.join(' ')}))`);
  }));
  await solve(paths);
  assert.deepEqual(paths.map((path) => path.open), ends.map(() => 'open'));
});
test('an array that is open for reading alone is not written', () => explore((path) => {
  const m = new Machine(read([['test.js', `${ARRAYS} const f = () => { words[0] = 5; };`]]), path);
  m.open('words', false);
  assert.throws(() => m.functions.f(), /no rule/);
}));
test('an index is another one only if both are distinct', () => explore((path) => {
  const body = 'const t = new Float64Array(Array(9).fill(Infinity)); t[x] = 5; t[y] = 6; return t[z];';
  const m = new Machine(read([['test.js', `const f = (x, y, z) => { ${body} };`]]), path);
  const [x, y, z, other] = [1, 2, 3, 4].map(() => path.unknown(0n, 8n));
  m.distinct = [x, y, z].map(({ term }) => term);
  assert.deepEqual([x, y, z].map((v) => m.functions.f(x, y, v)).map(({ term, infinite }) => `${term} ${infinite}`),
    ['5 false', '6 false', '0 true']);
  assert.throws(() => m.functions.f(x, y, other), /no rule/);
  assert.throws(() => m.functions.f(x, other, x), /no rule/);
}));
test('a factor that may be Infinity, a part of a string of any length, another count of arguments',
  () => explore((path) => {
    const m = new Machine(read([['test.js', 'const f = (x) => x;']]), path);
    m.stubs.f = () => 5;
    const x = path.unknown(5n, 6n);
    const [factor, text] = [integer('3', 3n, 3n, 'number', 'true'), Object.assign(textOf([]), { length: x })];
    assert.equal(m.call('', m.functions.f, undefined, x), 5);
    for (const step of [() => m.binary('', '*', x, factor), () => m.method('', text, 'slice', 0, 5),
                       () => m.call('', m.functions.f, undefined, x, x)])
      assert.throws(step, /no rule/);
  }));
test('errors name the form, and what is no JavaScript has its file and line', () => {
  const modules = read([['test.js', 'const f = (x) => x % 62;']]);
  const message = /^Error: test\.js:1: no rule for `x % 62`$/;
  assert.throws(() => explore((path) => new Machine(modules, path).functions.f(path.unknown(0n, 5n))), message);
  assert.throws(() => read([['a.js', 'const g = 1;\nconst h = %;']]), /^Error: a\.js:2: /);
});
test('a name twice, and a function or a name of the language that is assigned to', () => {
  assert.throws(() => read([['a.js', 'const g = 1;'], ['b.js', 'const g = 2;']]), /^Error: b\.js:1/);
  for (const assignment of ['f = 5', '[f] = [5]', 'const g = () => f++', 'for (f of [5]);', 'Number.isInteger = 5'])
    assert.throws(() => read([['a.js', `function f() {}\n${assignment};`]]), /^Error: a\.js:2: no rule/);
});
