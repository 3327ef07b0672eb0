// Times the package for JavaScript beside other code: see run.
import {existsSync, readFileSync} from 'node:fs';
import {createRequire} from 'node:module';

import * as base62 from '../js/index.js';

const characters = '0123456789ABCDEFGHIJKLMNOPQRSTUVWXYZabcdefghijklmnopqrstuvwxyz';
const npmBase62 = '/usr/share/nodejs/base62';
const [, , kind, rounds] = process.argv;

function encode(number) {
  let text = '';
  for (; number > 0n || !text; number /= 62n) text = characters[number % 62n] + text;
  return text;
}

function decode(text) {
  let number = 0n;
  for (const character of text) number = number * 62n + BigInt(characters.indexOf(character));
  return number;
}

const toHex = uuid => uuid.replaceAll('-', '');
const toUuid = hex => hex.padStart(32, '0').replace(/^(.{8})(....)(....)(....)/, '$1-$2-$3-$4-');
const encodeBase64 = uuid => Buffer.from(toHex(uuid), 'hex').toString('base64url');
const decodeBase64 = text => toUuid(Buffer.from(text, 'base64url').toString('hex'));
const encodeUuid = uuid => encode(BigInt('0x' + toHex(uuid))).padStart(22, '0');
const decodeUuid = text => toUuid(decode(text).toString(16));

// A round trip is compared.
function time(code, values, encode, decode) {
  const start = process.hrtime.bigint();
  const texts = values.map(value => encode(value));
  const middle = process.hrtime.bigint();
  const decoded = texts.map(text => decode(text));
  const times = { encode: middle - start, decode: process.hrtime.bigint() - middle };
  if (decoded.some((value, i) => value !== values[i])) throw Error(`${code} does not decode what it encodes`);
  for (const call in times)
    console.log(['JavaScript', kind, call, code, Number(times[call]) / values.length].join('\t'));
}

const numbers = readFileSync(0, 'utf8').trim().split('\n').map(decode);
const uuids = numbers.map(number => toUuid(number.toString(16)));
for (let round = 0; round < rounds; round++) {
  time('base62',
    ...kind === 'UUID' ? [uuids, base62.encodeKey, base62.decodeUuidKey] : [numbers, base62.encode, base62.decode]);
  time('a plain loop', ...kind === 'UUID' ? [uuids, encodeUuid, decodeUuid] : [numbers, encode, decode]);
  if (kind === 'UUID') time('base64url', uuids, encodeBase64, decodeBase64);
  if (kind === '40') time('base62, Numbers', numbers.map(Number), base62.encode, base62.decodeNumber);
  if (kind === '40' && existsSync(npmBase62)) {
    const theirs = createRequire(import.meta.url)(npmBase62);
    time("npm's base62, Numbers", numbers.map(Number), theirs.encode, theirs.decode);
  }
}
