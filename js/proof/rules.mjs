// What JavaScript means where a value is not known. Functions run in Node, but each operator, condition, read, store and
// call in them is a call of a rule here, and a form without one is an error. Where all values are known, a rule does what
// Node does. Unknown are:
// - a Number: an integer from -2**53 to 2**53, or Infinity. In place of any other one, such as NaN, there is an open goal or
//   an error. -0 is 0: no form that has a rule tells them apart.
// - a quotient of Numbers, of which only the integer part is known
// - a BigInt, a boolean, a string ('text', its code units), a typed array ('array')
import {constant, integer, isConstant, literal, power, range, Unknown} from './path.mjs';

const EXACT = power(53);
const least = (...values) => values.reduce((x, y) => (y < x ? y : x));
const greatest = (...values) => values.reduce((x, y) => (y > x ? y : x));
const not = (v) => (isUnknown(v) ? boolean(`(not ${v.term})`) : !v);
const boolean = (term) => new Unknown({ type: 'boolean', term });
export const textOf = (units) => new Unknown({type: 'text', units, length: units.length});
const isUnknown = (v) => v instanceof Unknown;
const isBig = ({ type }) => type === 'bigint';
const isFinite = (...values) => values.every(({ infinite }) => infinite === 'false');
const isPlain = (v) => /^(number|bigint|string)$/.test(typeof v);
const isListOf = (isElement, v) => Array.isArray(v) && v.every(isElement);
const native = (operator) => new Function('a', 'b', `return a ${operator} b`);

// ---- Operators. The operands are two Numbers or two BigInts, of which one is unknown.

// A result of Numbers is exact if it is within 2**53, which is a goal where the bounds do not show it. Infinity plus any
// number is Infinity. BigInts are exact.
function arithmetic(m, operator, a, b) {
  const term = m.path.define(`(${operator} ${a.term} ${b.term})`);
  if (isBig(a)) return integer(term, undefined, undefined, 'bigint');
  const results = [a.low, a.high].flatMap((x) => [b.low, b.high].map((y) => native(operator)(x, y)));
  const infinite = isFinite(a, b) ? 'false' : `(or ${a.infinite} ${b.infinite})`;
  return m.within(
    `${operator} is exact`, integer(term, least(...results), greatest(...results), 'number', infinite), -EXACT, EXACT);
}

// Infinity minus Infinity would be NaN.
const subtract = (m, operator, a, b) => (isFinite(b) ? arithmetic(m, operator, a, b) : m.fail());

// By a constant. Infinity times one above 0 is Infinity.
function multiply(m, operator, a, b) {
  const factor = isConstant(b) ? b : a;
  const isKnown = isConstant(factor) && (isBig(a) || factor.low > 0n);
  return isKnown ? arithmetic(m, operator, a, b) : m.fail();
}

// By a constant. README.md shows that the integer part is exact if the dividend is from 0 to 2**53.
function divide(m, operator, a, b) {
  if (isBig(a) || !isConstant(b) || b.low < 1n) m.fail();
  const [{ term, low, high }] = m.path.divide(m.within('a quotient of a number from 0 to 2**53', a, 0n, EXACT), b.low);
  return integer(term, low, high, 'quotient', a.infinite);
}

// ToInt32, ToUint32 and the like: the integer part modulo 2**bits, which is 0 for Infinity.
function modulo(m, v, bits, isSigned = false) {
  const [, { term, low, high }] = m.path.divide(v, power(bits), isSigned ? -power(bits - 1) : 0n);
  const rest = isFinite(v) ? term : m.path.define(`(ite ${v.infinite} 0 ${term})`);
  return integer(rest, least(0n, low), greatest(0n, high), isBig(v) ? 'bigint' : 'number');
}

// By a constant 2**k - 1 below 2**31: modulo 2**k, which divides 2**32.
function bitwiseAnd(m, operator, a, b) {
  const mask = isConstant(b) ? b.low.toString(2) : '';
  return !isBig(a) && /^1{1,31}$/.test(mask) ? modulo(m, a, mask.length) : m.fail();
}

// By a constant: the floor of the quotient by 2**k, of a BigInt, of a signed integer of 32 bits, or with >>> of an unsigned one.
function shiftRight(m, operator, a, b) {
  const isKnown = isConstant(b) && b.low >= 0n && b.low < (isBig(a) ? 999n : 32n) && (!isBig(a) || operator === '>>');
  const v = isBig(a) ? a : modulo(m, a, 32, operator === '>>');
  return isKnown ? m.path.divide(v, power(b.low))[0] : m.fail();
}

// Of a BigInt, by a constant.
function shiftLeft(m, operator, a, b) {
  if (!isBig(a) || !isConstant(b) || b.low < 0n || b.low > 999n) m.fail();
  return Object.assign(arithmetic(m, '*', a, constant(power(b.low), 'bigint')), { zeros: b.low });
}

// Of a BigInt that is shifted by k, and one from 0 to 2**k - 1, which is a goal: the sum.
function bitwiseOr(m, operator, a, b) {
  if (!isBig(a) || a.zeros === undefined) m.fail();
  return arithmetic(m, '+', a, m.within('the operands of | have no common bit', b, 0n, power(a.zeros) - 1n));
}

// Infinity is above all numbers.
const orInfinity = (v) => (isFinite(v) ? v.term : `(ite ${v.infinite} ${EXACT + 1n} ${v.term})`);
const compare = (m, operator, a, b) => boolean(`(${operator} ${orInfinity(a)} ${orInfinity(b)})`);
const equal = (m, operator, a, b) => compare(m, '=', a, b);

const OPERATORS = new Map([
  ['+', arithmetic], ['-', subtract], ['*', multiply], ['/', divide], ['&', bitwiseAnd], ['|', bitwiseOr],
  ['<<', shiftLeft], ['>>', shiftRight], ['>>>', shiftRight], ['<', compare], ['<=', compare], ['===', equal],
  ['>', (m, operator, a, b) => compare(m, '<', b, a)], ['>=', (m, operator, a, b) => compare(m, '<=', b, a)],
  ['!==', (m, operator, a, b) => not(equal(m, '', a, b))]
]);

// ---- Functions of the language, of unknown values

const isNumeric = ({ type }) => /^(number|quotient)$/.test(type);
const isNumber = ({ type }) => type === 'number';
const isFiniteNumber = (v) => isNumber(v) && isFinite(v);

// Of a number and a constant.
function minimum(m, a, given, ...others) {
  const b = m.known(given);
  if (others.length > 0 || !isFiniteNumber(a) || !isConstant(b)) m.fail();
  return integer(m.path.define(`(ite (<= ${a.term} ${b.term}) ${a.term} ${b.term})`), least(a.low, b.low), b.high);
}

// Of a Number that is no such integer, a double, nothing else is known.
function isSafeInteger(m, v) {
  if (v.type === 'quotient') m.fail();
  return v.type === 'number' && boolean(`(and (not ${v.infinite}) ${range(v.term, 1n - EXACT, EXACT - 1n)})`);
}

const floor = (m, v) => (isNumeric(v) ? integer(v.term, v.low, v.high, 'number', v.infinite) : m.fail());
const fromCharCode = (m, ...units) =>
  textOf(units.map(m.known, m).map((unit) => (isNumeric(unit) ? modulo(m, unit, 16) : m.fail())));

// ---- Strings

const unitsOf = (m, { type, units, length }) => (type === 'text' && units.length === length ? units : m.fail());
const slice = (m, text, ...ends) => ends.every(Number.isInteger) ? textOf(unitsOf(m, text).slice(...ends)) : m.fail();
const unitAt = (m, { type, units }, i) =>
  (type === 'text' && typeof i === 'number' ? units[Math.trunc(i)] : undefined) ?? m.fail();
const toLowerCase = (m, text) => new Unknown({ type: 'lowercase', units: unitsOf(m, text) });

// Of units that are not ASCII only one has a lowercase form that is: U+212A has k.
function isLowercase(m, { units }, string) {
  if (!/^[a-jl-z:]*$/.test(string)) m.fail();
  const isOne = ({ term }, c) => `(or (= ${term} ${c.charCodeAt()}) (= ${term} ${c.toUpperCase().charCodeAt()}))`;
  return units.length === string.length &&
    boolean(`(and true ${units.map((unit, i) => isOne(m.known(unit), string[i])).join(' ')})`);
}

export const charCodeAt = (string, i) => string.charCodeAt(i);
const refuse = (m) => m.fail();
const CALLS = new Map([
  [Math.floor, floor], [Math.min, minimum], [Number.isSafeInteger, isSafeInteger], [String.fromCharCode, fromCharCode],
  [charCodeAt, unitAt], [Array, refuse]
]);
const LIST_METHODS = [[].fill, [].push, [].reduce];
const METHODS = new Map(Object.entries({ charCodeAt: unitAt, slice, toLowerCase }));

// ---- Typed arrays. Those of a buffer share its cells, which are as wide as the elements of the narrowest of them. What a
// function creates has a list of stores instead, each with its index, once one of them is not known.

export const arrayOf = (cells, bits, kind = 'Uint', length = cells.length) =>
  new Unknown({type: 'array', cells, bits, kind, length});

// Of a length or a list of numbers, or over a buffer. What two arrays share is not known, and both are unsigned.
function createArray(m, Type, given) {
  const bits = 8 * Type.BYTES_PER_ELEMENT;
  const kind = Type.name.replace(/\d+Array$/, '');
  if (given.type !== 'buffer')
    return arrayOf(Object.assign([...new Type(given)], { bits, kind, areOpen: true, stores: [] }), bits, kind);
  const { cells, bytes } = given;
  if (cells.kind && !/^(Big)?Uint(Big)?Uint$/.test(cells.kind + kind)) m.fail();
  if (!(cells.bits <= bits)) Object.assign(cells, { length: 8 * bytes / bits, bits, kind }).fill(undefined);
  return arrayOf(cells, bits, kind, 8 * bytes / bits);
}

const bufferOf = (cells, bytes) => new Unknown({ type: 'buffer', cells, bytes });

function indexIn(m, { length }, index) {
  const i = m.known(index);
  if (!isFiniteNumber(i)) m.fail();
  return m.within('an index in the array', i, 0n, BigInt(length) - 1n);
}

// An index that is not known is for a table, or an array with a `lookup`.
function readElement(m, array, index) {
  const { cells, bits, kind, lookup } = array;
  const i = indexIn(m, array, index);
  if (lookup) return lookup(i);
  if (isUnknown(index) || cells.stores?.length > 0) {
    if (bits !== cells.bits) m.fail();
    // Of the stores from the last one on, the first whose index may be this one has to have just this one.
    const isOther = ([j]) => [i, j].every(({ term }) => m.distinct.includes(term)) && i.term !== j.term;
    const [j, v] = cells.stores?.findLast((stored) => !isOther(stored)) ?? [i, fromTable(m, cells, i)];
    return j.term === i.term ? v : m.fail();
  }
  const width = bits / cells.bits;
  if (width === 1) return cells[index] ?? m.fail();
  const parts = cells.slice(index * width, index * width + width)
                  .map((cell, i) => `(* ${power(cells.bits * i)} ${m.known(cell).term})`);
  return integer(
    m.path.define(`(+ ${parts.join(' ')})`), 0n, power(bits) - 1n, kind === 'BigUint' ? 'bigint' : 'number');
}

// One piece for each run of values that are equal.
function fromTable(m, cells, index) {
  if (cells.every((cell) => cell === cells[0])) return m.known(cells[0]);
  const values = cells.map((cell) => Number.isInteger(cell) ? BigInt(cell) : m.fail());
  const term = values.reduceRight(
    (others, v, i) => (v === values[i + 1] ? others : `(ite (<= ${index.term} ${i}) ${literal(v)} ${others})`), '0');
  return integer(m.path.define(term), least(...values), greatest(...values));
}

// An element keeps a value modulo 2**bits, or if it is a double the value.
function storeElement(m, array, index, v) {
  const { cells, bits, kind } = array;
  const holds = { Float: isNumber, Int: isNumeric, Uint: isNumeric, BigUint: isBig }[kind];
  if (!cells?.areOpen || !holds?.(v)) m.fail();
  let rest = kind === 'Float' ? v : modulo(m, v, bits, kind === 'Int');
  const at = indexIn(m, array, index);
  if (cells.stores && (isUnknown(index) || cells.stores.length > 0)) return cells.stores.push([at, rest]);
  if (isUnknown(index)) m.fail();
  const width = bits / cells.bits;
  for (let i = index * width; i < (index + 1) * width; i++) {
    const [higher, { term, low, high }] = m.path.divide(rest, power(cells.bits));
    cells[i] = width === 1 ? rest : integer(term, low, high);
    rest = higher;
  }
}

// ---- The rules of forms

const TYPES = new Map(Object.entries({ text: 'string', array: 'object', bigint: 'bigint' }));
for (const type of ['number', 'quotient', 'double']) TYPES.set(type, 'number');

const RULES = {
  // In a bitwise operator a quotient is a Number. '' + string is the string.
  binary(m, operator, x, y) {
    if (!isUnknown(x) && !isUnknown(y)) return typeof x === typeof y ? native(operator)(x, y) : m.fail();
    if (x === '' && operator === '+' && y.type === 'text') return y;
    if (x?.type === 'lowercase' && operator === '===' && typeof y === 'string') return isLowercase(m, x, y);
    const [a, b] = [m.known(x), m.known(y)];
    const types = [a, b].map(({ type }) => (type === 'quotient' && /^(&|>>>?)$/.test(operator) ? 'number' : type));
    const isKnown = types[0] === types[1] && /^(number|bigint)$/.test(types[0]) && OPERATORS.has(operator);
    return isKnown ? OPERATORS.get(operator)(m, operator, a, b) : m.fail();
  },

  unary(m, operator, v) {
    if (operator === 'typeof') return isUnknown(v) ? TYPES.get(v.type) ?? m.fail() : typeof v;
    if (operator === '-' && !isUnknown(v)) return -v;
    return operator === '!' && (!isUnknown(v) || v.type === 'boolean') ? not(v) : m.fail();
  },

  // Whether a condition holds on this path.
  holds(m, v) {
    if (++m.steps > 10_000) throw new Error(`${m.at[0]}: more than 10000 conditions`);
    if (!isUnknown(v)) return Boolean(v);
    return v.type === 'boolean' ? m.path.decide(v.term) : m.fail();
  },
  and: (m, left, right) => (RULES.holds(m, left) ? right() : !isUnknown(left) && left),
  or: (m, left, right) => (RULES.holds(m, left) ? isUnknown(left) || left : right()),

  // Each element of a list is a path of its own.
  read(m, object, index) {
    if (isUnknown(object) && object.type === 'array') return readElement(m, object, index);
    if (Array.isArray(object) && isUnknown(index)) {
      const { term } = indexIn(m, object, index);
      return object.slice(0, -1).find((v, i) => m.path.decide(`(= ${term} ${i})`)) ?? object.at(-1);
    }
    return isUnknown(object) || isUnknown(index) ? m.fail() : object[index] ?? m.fail();
  },

  store(m, array, index, value) {
    storeElement(m, array, index, m.known(value));
    return value;
  },

  member(m, object, name) {
    if (name !== 'buffer') return (name === 'length' || object === String ? object[name] : undefined) ?? m.fail();
    const { type, cells, bits, length } = object;
    return type === 'array' && !cells.areOpen ? bufferOf(cells, length * bits / 8) : m.fail();
  },

  create(m, Type, given, ...others) {
    const isKnown =
      Number.isInteger(given) || (Type !== ArrayBuffer && (given?.type === 'buffer' || isListOf(isPlain, given)));
    if (!isKnown || others.length > 0) m.fail();
    return Type === ArrayBuffer ? bufferOf([], given) : createArray(m, Type, given);
  },

  // A function of the modules, one with a rule, or one of Node with known values.
  call(m, f, self, ...values) {
    const isOwn = m.functions[f.name] === f;
    if (isOwn && m.stubs[f.name]) {
      const result = values.length === f.length ? m.stubs[f.name](...values) : undefined;
      return result === undefined ? m.fail() : result;
    }
    if (isOwn || (LIST_METHODS.includes(f) && Array.isArray(self))) return f.apply(self, values);
    if (!CALLS.has(f)) m.fail();
    return values.some(isUnknown) ? CALLS.get(f)(m, ...values) : f(...values);
  },
  method(m, object, name, ...values) {
    if (!isUnknown(object)) return RULES.call(m, object[name], object, ...values);
    return METHODS.has(name) ? METHODS.get(name)(m, object, ...values) : m.fail();
  }
};

// ---- The machine runs functions on a path.

export const THROWN = Symbol('an error');

export class Machine {
  thrown = THROWN;
  unused = new Unknown({});
  steps = 0;
  stubs = { __proto__: null };
  distinct = [];
  values = {};
  charCodeAt = charCodeAt;

  constructor({ code, others }, path) {
    Object.assign(this, { path, others });
    for (const [name, rule] of Object.entries(RULES))
      this[name] = (at, ...given) => rule(Object.assign(this, { at }), ...given);
    new Function('$', code)(this);
  }

  // What a module computes is known if nothing may change it later: a number, a BigInt, a string, or a table, which is an array
  // of such that is only read. Of other typed arrays, nothing else is known, unless a proof opens them.
  value(name, init) {
    let v;
    try {
      v = init();
    } catch { v = undefined; }
    const isTable = !this.others.has(name);
    if (v?.type === 'array') {
      Object.assign(v.cells, { areOpen: false, stores: undefined });
      if (!isTable) v.cells.fill(undefined);
    } else if (!isPlain(v) && v !== charCodeAt && !(isTable && isListOf(isPlain, v))) v = new Unknown({});
    return this.values[name] = v;
  }

  // Lets functions read an array, which has any elements, and write it if it is for results.
  open(name, isForResults = true) {
    const { cells } = this.values[name];
    cells.areOpen = isForResults;
    const low = cells.kind === 'Int' ? -power(cells.bits - 1) : 0n;
    for (let i = 0; i < cells.length; i++) cells[i] = this.path.input(low, low + power(cells.bits) - 1n);
    return cells;
  }

  fail([place, text] = this.at) { throw new Error(`${place}: no rule for \`${text}\``); }

  // An integer, of which is proved that it has these bounds. Bounds of its own may show it.
  within(goal, v, low, high) {
    if (v.low >= low && v.high <= high) return v;
    this.path.prove(`${this.at[0]}: ${goal}: \`${this.at[1]}\``, range(v.term, low, high));
    return Object.assign(new Unknown(v), { low: greatest(v.low ?? low, low), high: least(v.high ?? high, high) });
  }

  // A known Number or BigInt as an unknown one. -0 is an error, since a result can be told from 0.
  known(v) {
    if (v === Infinity) return integer('0', 0n, 0n, 'number', 'true');
    if (typeof v === 'bigint') return constant(v, 'bigint');
    return isUnknown(v) ? v : Number.isSafeInteger(v) && !Object.is(v, -0) ? constant(BigInt(v)) : this.fail();
  }
}
