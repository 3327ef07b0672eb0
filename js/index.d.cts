// SPDX-License-Identifier: MIT
// Copyright (c) 2026 the maintainers of base62 for Rattle

/** An unsigned integer: a `bigint` up to 2n ** 128n - 1n, or a `number` up to `Number.MAX_SAFE_INTEGER`. */
export type Integer = number | bigint;

/** An encoded string, or its bytes in UTF-8. */
export type EncodedString = string | Uint8Array;

/**
 * A UUID: 16 bytes, big-endian, or a string of 32 hexadecimal digits in either case, with hyphens or without, in braces
 * or after `urn:uuid:`. The bits of the version and the variant are not checked.
 */
export type Uuid = string | Uint8Array;

/**
 * Encodes a number as its shortest string.
 * @param number an integer from 0 to 2n ** 128n - 1n, or to 2 ** 53 - 1 as a `number`
 * @param alphabet by default {@link Alphabet.standard}
 * @returns 1 to 22 characters, without leading zeros
 * @throws {TypeError} if an argument has another type
 * @throws {Base62Error} `OUT_OF_RANGE` for any other number, such as 1.5, -1 or NaN
 * @example console.log(encode(1337)); // LZ
 */
export function encode(number: Integer, alphabet?: Alphabet): string;

/**
 * Encodes a number or a UUID as a string of a fixed width, with leading zeros. Such strings sort in numeric order if the
 * alphabet's characters are in ascending ASCII order, as those of {@link Alphabet.standard} are.
 * @param value a number as for {@link encode}, or a UUID as for {@link encodeUuid}
 * @param width an integer from 1 to 2 ** 53 - 1
 * @param alphabet by default {@link Alphabet.standard}
 * @returns exactly `width` characters
 * @throws {TypeError} if an argument has another type
 * @throws {Base62Error} `INVALID_UUID` for any other string or bytes; `OUT_OF_RANGE` for any other number or width, or a
 *   number that needs more characters
 * @example console.log(encodeFixed(1337, 4)); // 00LZ
 */
export function encodeFixed(value: Integer | Uuid, width: number, alphabet?: Alphabet): string;

/**
 * Encodes a number or a UUID as a key. Keys sort in numeric order, and in the order of their UUIDs' bytes.
 * @param value a number as for {@link encode}, or a UUID as for {@link encodeUuid}
 * @returns exactly 22 characters of the standard alphabet
 * @throws {TypeError} if the argument has another type
 * @throws {Base62Error} `INVALID_UUID` for any other string or bytes; `OUT_OF_RANGE` for any other number
 * @example console.log(encodeKey('017f22e2-79b0-7cc3-98c4-dc0c0c07398f')); // 02p5oQZoHTv0zeY5yG21K3
 */
export function encodeKey(value: Integer | Uuid): string;

/**
 * Like {@link encode}, but encodes a UUID, read as a big-endian 128-bit integer.
 * @returns 1 to 22 characters, without leading zeros
 * @throws {Base62Error} `INVALID_UUID` for any other string or bytes
 * @example console.log(encodeUuid('017f22e2-79b0-7cc3-98c4-dc0c0c07398f')); // 2p5oQZoHTv0zeY5yG21K3
 */
export function encodeUuid(uuid: Uuid, alphabet?: Alphabet): string;

/**
 * Returns the length of the string that {@link encode} returns.
 * @param number as for {@link encode}
 * @returns 1 to 22
 * @throws {TypeError} if the argument has another type
 * @throws {Base62Error} `OUT_OF_RANGE` for any other number
 * @example console.log(digitCount(1337)); // 2
 */
export function digitCount(number: Integer): number;

/**
 * Decodes a string of any length. Leading zeros are ignored.
 * @param text the string
 * @param alphabet by default {@link Alphabet.standard}
 * @returns a number from 0n to 2n ** 128n - 1n, which may exceed a 64-bit column
 * @throws {TypeError} if an argument has another type
 * @throws {Base62Error} `EMPTY_INPUT`; `INVALID_BYTE` if a byte is not in the alphabet; `OVERFLOW` for 2 ** 128 or more,
 *   or more than 22 bytes after the leading zeros. docs/DECODING.md of the repository says which of several is thrown.
 * @example console.log(decode('00LZ')); // 1337n
 */
export function decode(text: EncodedString, alphabet?: Alphabet): bigint;

/**
 * Like {@link decode}, but returns a `number`.
 * @returns a number from 0 to 2 ** 53 - 1
 * @throws {Base62Error} the codes of {@link decode}; `UNSAFE_INTEGER` for 2 ** 53 or more
 * @example console.log(decodeNumber('00LZ')); // 1337
 */
export function decodeNumber(text: EncodedString, alphabet?: Alphabet): number;

/**
 * Like {@link decode}, but accepts only the strings that {@link encode} returns.
 * @returns a number from 0n to 2n ** 128n - 1n
 * @throws {Base62Error} the codes of {@link decode}; `NOT_CANONICAL` for a leading zero
 * @example console.log(decodeCanonical('LZ')); // 1337n
 */
export function decodeCanonical(text: EncodedString, alphabet?: Alphabet): bigint;

/**
 * Like {@link decodeCanonical}, but returns a `number`.
 * @returns a number from 0 to 2 ** 53 - 1
 * @throws {Base62Error} the codes of {@link decodeCanonical}; `UNSAFE_INTEGER` for 2 ** 53 or more
 * @example console.log(decodeNumberCanonical('LZ')); // 1337
 */
export function decodeNumberCanonical(text: EncodedString, alphabet?: Alphabet): number;

/**
 * Like {@link decode}, but accepts only the strings that {@link encodeFixed} returns for this width.
 * @param width an integer from 0 to 2 ** 53 - 1
 * @returns a number from 0n to 2n ** 128n - 1n
 * @throws {Base62Error} `OUT_OF_RANGE` for any other width; `WRONG_LENGTH` for any other number of bytes; then the codes
 *   of {@link decode}
 * @example console.log(decodeFixed('00LZ', 4)); // 1337n
 */
export function decodeFixed(text: EncodedString, width: number, alphabet?: Alphabet): bigint;

/**
 * Like {@link decodeFixed}, but returns a `number`.
 * @returns a number from 0 to 2 ** 53 - 1
 * @throws {Base62Error} the codes of {@link decodeFixed}; `UNSAFE_INTEGER` for 2 ** 53 or more
 * @example console.log(decodeNumberFixed('00LZ', 4)); // 1337
 */
export function decodeNumberFixed(text: EncodedString, width: number, alphabet?: Alphabet): number;

/**
 * Like {@link decode}, but decodes a key: accepts only the strings that {@link encodeKey} returns.
 * @returns a number from 0n to 2n ** 128n - 1n
 * @throws {Base62Error} `WRONG_LENGTH` for any other number of bytes; then the codes of {@link decode}
 * @example console.log(decodeKey('00000000000000000000LZ')); // 1337n
 */
export function decodeKey(text: EncodedString): bigint;

/**
 * Like {@link decode}, but returns the UUID of the number. Each number has one.
 * @returns the UUID, in lowercase with hyphens
 * @throws {Base62Error} the codes of {@link decode}
 * @example console.log(decodeUuid('2p5oQZoHTv0zeY5yG21K3')); // 017f22e2-79b0-7cc3-98c4-dc0c0c07398f
 */
export function decodeUuid(text: EncodedString, alphabet?: Alphabet): string;

/**
 * Like {@link decodeCanonical}, but returns a UUID: accepts only the strings that {@link encodeUuid} returns.
 * @returns the UUID, in lowercase with hyphens
 * @throws {Base62Error} the codes of {@link decodeCanonical}
 * @example console.log(decodeUuidCanonical('2p5oQZoHTv0zeY5yG21K3')); // 017f22e2-79b0-7cc3-98c4-dc0c0c07398f
 */
export function decodeUuidCanonical(text: EncodedString, alphabet?: Alphabet): string;

/**
 * Like {@link decodeFixed}, but returns a UUID.
 * @returns the UUID, in lowercase with hyphens
 * @throws {Base62Error} the codes of {@link decodeFixed}
 * @example console.log(decodeUuidFixed('02p5oQZoHTv0zeY5yG21K3', 22)); // 017f22e2-79b0-7cc3-98c4-dc0c0c07398f
 */
export function decodeUuidFixed(text: EncodedString, width: number, alphabet?: Alphabet): string;

/**
 * Like {@link decodeKey}, but returns a UUID.
 * @returns the UUID, in lowercase with hyphens
 * @throws {Base62Error} the codes of {@link decodeKey}
 * @example console.log(decodeUuidKey('02p5oQZoHTv0zeY5yG21K3')); // 017f22e2-79b0-7cc3-98c4-dc0c0c07398f
 */
export function decodeUuidKey(text: EncodedString): string;

/**
 * Returns the least and the greatest number whose strings of `width` characters begin with a prefix, as do those of all
 * numbers between.
 * @param prefix the prefix, which may be empty
 * @param width an integer from 0 to 2 ** 53 - 1
 * @param alphabet by default {@link Alphabet.standard}
 * @returns both numbers, or null if there are none
 * @throws {TypeError} if an argument has another type
 * @throws {Base62Error} `INVALID_BYTE` if a byte is not in the alphabet; `OUT_OF_RANGE` for any other width
 * @example console.log(prefixRange('00a', 7)); // [ 531948096n, 546724431n ]
 */
export function prefixRange(prefix: EncodedString, width: number, alphabet?: Alphabet):
  [least: bigint, greatest: bigint] | null;

/**
 * Like {@link prefixRange}, but for keys: a width of 22 and the standard alphabet.
 * @returns both numbers, or null if there are none
 * @throws {Base62Error} `INVALID_BYTE` if a byte is not in the alphabet
 * @example console.log(keyRange('00000000000000000000L')); // [ 1302n, 1363n ]
 */
export function keyRange(prefix: EncodedString): [least: bigint, greatest: bigint] | null;

/**
 * Like {@link keyRange}, but returns the keys of both numbers, as bounds for `BETWEEN` in a database column that
 * compares byte by byte: `COLLATE "C"` in PostgreSQL, `BINARY` in SQLite.
 * @returns both keys, or null if there are none
 * @throws {Base62Error} `INVALID_BYTE` if a byte is not in the alphabet
 * @example console.log(keyBounds('00000000000000000000L')); // [ '00000000000000000000L0', '00000000000000000000Lz' ]
 */
export function keyBounds(prefix: EncodedString): [least: string, greatest: string] | null;

/** An alphabet: 62 distinct ASCII characters in the order of their digit values, 0 to 61. */
export class Alphabet {
  /**
   * Creates a custom alphabet. Create it once, not for each call.
   * @param characters the 62 characters
   * @throws {TypeError} if the argument has another type
   * @throws {Base62Error} `INVALID_ALPHABET` if they are not 62 ASCII characters; otherwise `REPEATED_CHARACTER` for the
   *   first that equals an earlier one
   * @example
   * const readable = new Alphabet('23456789ABCDEFGHJKLMNPQRSTUVWXYZabcdefghijkmnpqrstuvwxyz-_.~!*');
   * console.log(encode(1337, readable)); // Pd
   */
  constructor(characters: string);
  readonly characters: string;
  /** `0` to `9`, `A` to `Z`, `a` to `z`, the default. */
  static readonly standard: Alphabet;
  /** `0` to `9`, `a` to `z`, `A` to `Z`. Strings of one width do not sort in numeric order. */
  static readonly alternative: Alphabet;
  private readonly tables;
}

/**
 * Thrown for an argument of the right type with an invalid value. An argument of another type throws a `TypeError`.
 * @example
 * try {
 *   decode('LZ-');
 * } catch (error) {
 *   if (error instanceof Base62Error) console.log(error.code, error.byte, error.index); // INVALID_BYTE 45 2
 * }
 */
export class Base62Error extends RangeError {
  constructor(message: string, code: Base62Error['code'], byte?: number, index?: number);
  /** What is wrong. Each function lists its codes. */
  code: 'EMPTY_INPUT' | 'INVALID_BYTE' | 'OVERFLOW' | 'NOT_CANONICAL' | 'WRONG_LENGTH' | 'UNSAFE_INTEGER'
    | 'OUT_OF_RANGE' | 'INVALID_UUID' | 'REPEATED_CHARACTER' | 'INVALID_ALPHABET';
  /** The byte of `INVALID_BYTE` or `REPEATED_CHARACTER`. */
  byte?: number;
  /** Its index, which is also that of the character, since those before it are ASCII. */
  index?: number;
}
