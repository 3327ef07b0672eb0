// Checks each function by rows in the form of tests/values.tsv, in any runtime. Draws such rows, in Node.

// The functions that decode, by what they accept.
const DECODERS = {
  any: ['decode', 'decodeNumber', 'decodeUuid'],
  canonical: ['decodeCanonical', 'decodeNumberCanonical', 'decodeUuidCanonical'],
  fixed: ['decodeFixed', 'decodeNumberFixed', 'decodeUuidFixed'],
  key: ['decodeKey', 'decodeUuidKey']
};

// The codes of errors by the words of the rows.
const CODES = {
  byte: 'INVALID_BYTE',
  empty: 'EMPTY_INPUT',
  length: 'WRONG_LENGTH',
  overflow: 'OVERFLOW',
  repeated: 'REPEATED_CHARACTER',
  zero: 'NOT_CANONICAL'
};

// The ends of messages by the hints of the rows.
const HINTS = {
  none: '',
  uuid: ': encode UUIDs with encodeKey or encodeUuid',
  decimal: ': convert decimal digits with BigInt',
  both: ': convert decimal digits with BigInt, or encode UUIDs with encodeKey or encodeUuid'
};

const errorOf = (kind, byte, index) =>
  byte === undefined ? { code: CODES[kind] } : { code: CODES[kind], byte: Number(byte), index: Number(index) };

// A text as a string with a character for each byte, as bytes, and if they are UTF-8 as the string that they encode.
const textOf = (field) => field.replace(/%(..)/g, (_, digits) => String.fromCharCode(parseInt(digits, 16)));
const bytesOf = (field) => Uint8Array.from(textOf(field), (character) => character.charCodeAt(0));
function formsOf(field) {
  const bytes = bytesOf(field);
  try {
    return [bytes, decodeURIComponent(field)];
  } catch { return [bytes]; }
}

const DIGITS = '0123456789ABCDEFGHIJKLMNOPQRSTUVWXYZabcdefghijklmnopqrstuvwxyz';
const encodingOf = (number) => (number < 62n ? '' : encodingOf(number / 62n)) + DIGITS[number % 62n];
const hexOf = (number) => number.toString(16).padStart(32, '0');
const uuidOf = (number) => hexOf(number).replace(/^(.{8})(.{4})(.{4})(.{4})/, '$1-$2-$3-$4-');
const uuidsOf = (number) => [uuidOf(number), bytesOf(hexOf(number).replace(/../g, '%$&'))];
const isSafe = (number) => number <= Number.MAX_SAFE_INTEGER;
const numbersOf = (number) => (isSafe(number) ? [number, Number(number)] : [number]);
const valuesOf = (number) => [...numbersOf(number), ...uuidsOf(number)];
const isKey = (alphabet, width) => alphabet === 'standard' && width === '22';

// What a function with this name returns for a string of the number, or the error.
function decodingOf(name, expected) {
  if (typeof expected !== 'bigint') return expected;
  if (name.startsWith('decodeUuid')) return uuidOf(expected);
  if (!name.startsWith('decodeNumber')) return expected;
  return isSafe(expected) ? Number(expected) : { code: 'UNSAFE_INTEGER' };
}

const decodingsOf = (kind, expected, ...others) =>
  DECODERS[kind].map((name) => [name, decodingOf(name, expected), ...others]);

function decodings(alphabet, field, expected, canonical = expected) {
  const texts = formsOf(field);
  return [...decodingsOf('any', expected, texts, alphabet), ...decodingsOf('canonical', canonical, texts, alphabet)];
}

// The calls of a row: a function, its result, the values of its first argument, the alphabet, and other arguments.
const ROWS = {
  alphabet(name, field, isAscii) {
    const characters = textOf(field);
    return [['Alphabet', isAscii === '1' ? { characters } : { code: 'INVALID_ALPHABET' }, [characters]]];
  },
  repeated(field, ...where) {
    const error = /%[89A-F]/.test(field) ? { code: 'INVALID_ALPHABET' } : errorOf('repeated', ...where);
    return [['Alphabet', error, [textOf(field)]]];
  },
  encode(alphabet, digits, field) {
    const number = BigInt(digits);
    const text = textOf(field);
    const count = ['digitCount', text.length, numbersOf(number)];
    const calls = [['encode', text, numbersOf(number), alphabet], ['encodeUuid', text, uuidsOf(number), alphabet]];
    return [count, ...calls, ...decodings(alphabet, field, number)];
  },
  zeros: (alphabet, field, number) => decodings(alphabet, field, BigInt(number), errorOf('zero')),
  decode_error: (alphabet, field, ...error) => decodings(alphabet, field, errorOf(...error)),
  fixed(alphabet, number, width, field) {
    const values = valuesOf(BigInt(number));
    const keys = isKey(alphabet, width) ? [['encodeKey', textOf(field), values]] : [];
    const call = ['encodeFixed', textOf(field), values, alphabet, Number(width)];
    return [call, ...keys, ...ROWS.decode_fixed(alphabet, width, field, 'number', number)];
  },
  too_narrow(alphabet, number, width) {
    return [['encodeFixed', { code: 'OUT_OF_RANGE' }, valuesOf(BigInt(number)), alphabet, Number(width)]];
  },
  decode_fixed(alphabet, width, field, kind, ...numbers) {
    const texts = formsOf(field);
    const result = kind === 'number' ? BigInt(numbers[0]) : errorOf(kind, ...numbers);
    const expected = isSafe(width) ? result : { code: 'OUT_OF_RANGE' };
    const keys = isKey(alphabet, width) ? decodingsOf('key', expected, texts) : [];
    return [...decodingsOf('fixed', expected, texts, alphabet, Number(width)), ...keys];
  },
  range(alphabet, width, field, kind, ...numbers) {
    const prefixes = formsOf(field);
    const expected = { none: null, byte: errorOf(kind, ...numbers), numbers: numbers.map(BigInt) }[kind];
    const call = ['prefixRange', expected, prefixes, alphabet, Number(width)];
    if (!isKey(alphabet, width)) return [call];
    const keys = kind === 'numbers' ? expected.map((end) => encodingOf(end).padStart(22, '0')) : expected;
    return [call, ['keyRange', expected, prefixes], ['keyBounds', keys, prefixes]];
  },
  uuid: (number, uuid, text) => [['encodeUuid', text, [uuid]], ['decodeUuid', uuid, [text]]],
  // The end of each error. Rows of uuid_string have the same UUIDs for the functions that it names.
  hint(call, field, hint) {
    const encoders = ['encode', 'digitCount', ...(/uuid|both/.test(hint) ? [] : ['encodeFixed', 'encodeKey'])];
    const names = call === 'encode' ? encoders : Object.values(DECODERS).flat();
    const widthOf = (name) => (name.endsWith('Fixed') ? [22] : []);
    return names.map((name) => [name, HINTS[hint], [decodeURIComponent(field)], 'none', ...widthOf(name)]);
  },
  uuid_string(field, uuid) {
    const string = decodeURIComponent(field);
    const text = uuid === 'none' ? undefined : encodingOf(BigInt(`0x${uuid.replaceAll('-', '')}`));
    const error = { code: 'INVALID_UUID' };
    return [['encodeUuid', text ?? error, [string]], ['encodeKey', text?.padStart(22, '0') ?? error, [string]]];
  }
};

// A result with its type.
const show = (result) =>
  JSON.stringify(result, (_, value) => (/bigint|undefined/.test(typeof value) ? `${typeof value} ${value}` : value));

export class Checks {
  calls = 0;
  called = new Set();
  #base62;
  #messages = { 'OVERFLOW,': 'Encoded input represents 2**128 or more, or has more than 22 characters' };
  // The ways to give a function an alphabet as the last argument. One that is not of ASCII has none.
  #alphabets = { none: [[]] };

  constructor(base62, file) {
    this.#base62 = base62;
    // The messages for another length and for overflow are not those of C.
    for (const [, text, kind, byte] of file.matchAll(/^message\t(\S+)\t(?!length|overflow)(\w+)\t?(\d*)/gm))
      this.#messages[[CODES[kind], byte]] = textOf(text).replace(/\d+$/, '');
    for (const row of file.match(/^(?!message)\w.*/gm)) this.check(row);
  }

  check(row) {
    const [kind, ...fields] = row.split('\t');
    if (!ROWS[kind]) throw new Error(`js/tests/calls.mjs has no calls for rows of the kind ${kind}`);
    if (kind === 'alphabet') this.#addAlphabet(...fields);
    for (const [name, expected, values, alphabet = 'none', ...others] of ROWS[kind](...fields)) {
      for (const value of values) {
        for (const last of this.#alphabets[alphabet]) {
          const result = this.#resultOf(kind, name, [value, ...others, ...last]);
          if (Object.is(result, expected) || show(result) === show(expected)) continue;
          throw new Error(`${row.slice(0, 200)}: ${name} of ${typeof value}: ${show(result)} is not ${show(expected)}`);
        }
      }
    }
  }

  #addAlphabet(name, field, isAscii) {
    const { Alphabet } = this.#base62;
    this.#alphabets[name] = isAscii === '1' ? [[Alphabet[name] ?? new Alphabet(textOf(field))]] : [];
    if (name === 'standard') this.#alphabets[name].push([]);
  }

  // What a function returns, or the properties of its error, if this has the message that a row has for it, or of a hint.
  #resultOf(kind, name, given) {
    const { [name]: call, Base62Error } = this.#base62;
    this.calls++;
    this.called.add(name);
    try {
      return name === 'Alphabet' ? new call(...given) : call(...given);
    } catch (error) {
      if (kind === 'hint') return /(: (convert|encode) .*)?$/.exec(error.message)[0];
      const { code, byte = '', index = '' } = error;
      const message = this.#messages[[code, byte]];
      const isExpected = message === undefined || error.message.replace(HINTS.uuid, '') === message + index;
      return error instanceof Base62Error && isExpected ? {...error } : `${error}`;
    }
  }
}

const ASCII = Array.from({ length: 128 }, (_, code) => String.fromCharCode(code));
const OTHERS = [...ASCII, ...'\x80\u0141\u07ff\u0800\uffff\u{10000}\u{10ffff}'];
const below = (end) => Math.floor(Math.random() * end);
const pick = (list) => list[below(list.length)];
const fieldOf = (text) => Buffer.from(text).toString('hex').replace(/../g, '%$&');

// Of any length. In a base of the library or of its arithmetic, runs of digits at both ends, or of any; then near it.
function drawNumber() {
  const base = pick([2n, 62n, 256n, 2n ** 24n, 2n ** 32n, 62n ** 4n, 62n ** 8n]);
  const limit = 2n ** BigInt(below(129));
  let digit = 1n;
  let number = 0n;
  do {
    if (below(3) === 0) digit = pick([0n, 1n, base - 2n, base - 1n, BigInt(below(Number(base)))]);
    number = number * base + digit;
  } while (number < limit);
  return BigInt.asUintN(128, number + BigInt(below(5) - 2));
}

// Zeros and the string of a number or any characters of the alphabet, with one other character or several anywhere.
function drawText({ encode }, alphabet) {
  const { characters } = alphabet;
  const any = Array.from({ length: below(25) }, () => pick(characters));
  const digits = [...characters[0].repeat(pick([0, 1, below(30)])), ...pick([any, encode(drawNumber(), alphabet)])];
  digits.splice(below(digits.length + 1), 0, pick(OTHERS).repeat(pick([0, 0, 1, below(9)])));
  return Buffer.from(digits.join(''), pick(['latin1', 'utf8']));
}

// A string of a UUID in any form with one other character, whose lowercase or width is that of ASCII, in a place of another.
function drawOtherUuid() {
  const uuid = uuidOf(drawNumber());
  const units = [...pick([uuid, uuid.replaceAll('-', ''), `{${uuid}}`, `urn:uuid:${uuid}`])];
  units.splice(below(units.length), 1, pick('\u0130\u212a\uff10'));
  return units.join('');
}

// The UUID of a string, or none.
function uuidOfString({ encodeUuid, decodeUuid }, string) {
  try {
    return decodeUuid(encodeUuid(string));
  } catch { return 'none'; }
}

// What a call returns or throws, in the words of the rows.
function resultOf(call) {
  try {
    const result = call();
    if (result === null) return 'none';
    return typeof result === 'bigint' ? `number\t${result}` : `numbers\t${result.join('\t')}`;
  } catch ({ code, byte, index }) {
    const word = Object.keys(CODES).find((key) => CODES[key] === code);
    return byte === undefined ? word : `${word}\t${byte}\t${index}`;
  }
}

// Rows of each kind that has an alphabet, of what the functions return for drawn arguments.
function drawRowsOver(base62, name, alphabet) {
  const number = drawNumber();
  const text = drawText(base62, alphabet);
  const string = drawOtherUuid();
  const width = pick([22, text.length, below(60)]);
  const field = fieldOf(text);
  const isNarrow = base62.digitCount(number) > width;
  const fixed = isNarrow ? '' : fieldOf(base62.encodeFixed(number, width, alphabet));
  const any = resultOf(() => base62.decode(text, alphabet));
  const [kind, value] = any.split('\t');
  const isSame = any === resultOf(() => base62.decodeCanonical(text, alphabet));
  const canonical =
    kind === 'number' ? `encode\t${name}\t${value}\t${field}` : `decode_error\t${name}\t${field}\t${any}`;
  return [
    `encode\t${name}\t${number}\t${fieldOf(base62.encode(number, alphabet))}`,
    isNarrow ? `too_narrow\t${name}\t${number}\t${width}` : `fixed\t${name}\t${number}\t${width}\t${fixed}`,
    isSame ? canonical : `zeros\t${name}\t${field}\t${value}`,
    `decode_fixed\t${name}\t${width}\t${field}\t${resultOf(() => base62.decodeFixed(text, width, alphabet))}`,
    `range\t${name}\t${width}\t${field}\t${resultOf(() => base62.prefixRange(text, width, alphabet))}`,
    `uuid_string\t${fieldOf(string)}\t${uuidOfString(base62, string)}`
  ];
}

// Rows over the standard alphabet and one that is drawn.
export function drawRows(base62) {
  const others = [...ASCII];
  const characters = Array.from({ length: 62 }, () => others.splice(below(others.length), 1)[0]).join('');
  const alphabets = [['standard', base62.Alphabet.standard], ['drawn', new base62.Alphabet(characters)]];
  const rows = Array.from({ length: 1000 }, () => drawRowsOver(base62, ...pick(alphabets))).flat();
  return [`alphabet\tdrawn\t${fieldOf(characters)}\t1`, ...rows];
}
