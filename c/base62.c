/* SPDX-License-Identifier: MIT */
/* Copyright (c) 2026 the maintainers of base62 for Rattle */

/*
 * Encodes unsigned integers below 2^128 in base 62, and decodes them: the functions that base62.h declares.
 *
 * It follows the library in crates/base62/src, which is written and proved in the language Rattle. Here the decoder
 * splits a text before its last ten digits, and looks for an invalid byte a second time to report it.
 *
 * Frama-C proves this file too, for a size_t of 64 bits and of 32: c/proof has the contracts. A line "//@ assert
 * requires" is a precondition for Frama-C. A function that writes count digits of n also requires n < 62^count.
 * u128_mul_64 and u64_ilog2 use an extension of the compiler if it has one, which is tested, not proved.
 *
 * Indexes are not checked: the proof shows that each is in bounds. They stay so if another thread changes what is read.
 * Nothing is allocated, and there is no state. It is C99, for machines of 32 or 64 bits and of either byte order. With
 * BASE62_NO_INT128, u128_mul_64 uses no integer of 128 bits.
 */
#include "base62.h"

#include <limits.h>
#include <stdbool.h>
#include <stddef.h>
#include <stdint.h>

#ifdef __cplusplus
#error "compile base62.c as C"
#endif
#if defined CHAR_BIT && CHAR_BIT != 8
#error "base62.c is for bytes of 8 bits"
#endif
#if defined SIZE_MAX && SIZE_MAX < 0xffffffff
#error "base62.c is for a size_t of 32 bits or more"
#endif
#if '0' != 48 || 'A' != 65 || 'a' != 97
#error "base62.c is for an execution character set of ASCII"
#endif

#ifdef __GNUC__
#define B62_ALWAYS_INLINE inline __attribute__((__always_inline__))
/* Code reads a base62_alphabet as a Tables: without this, GCC may move that across an assignment to it. */
#define B62_MAY_ALIAS __attribute__((__may_alias__))
#else
#define B62_ALWAYS_INLINE inline
#define B62_MAY_ALIAS
#endif
#if defined _MSC_VER || defined __cplusplus
/* In C++ too, so that the compiler reports no other error than that of above. */
#define B62_RESTRICT __restrict
#else
#define B62_RESTRICT restrict
#endif
#if defined __GNUC__ && !defined __clang__ && __GNUC__ > 10 && __STDC_HOSTED__
/* GCC packs the halves of a u128 into a vector register, only to unpack them again. Before GCC 11 the second pragma
   would replace all other options. With -ffreestanding it would let GCC call memset. */
#pragma GCC push_options
#pragma GCC optimize("no-tree-slp-vectorize")
#endif

/* Unsigned integers below 2^128. Sums, differences and products are modulo 2^128. */
typedef base62_number u128;

static B62_ALWAYS_INLINE u128 u128_of(uint64_t n) { return (u128){0, n}; }
static B62_ALWAYS_INLINE bool u128_less(u128 a, u128 b) { return a.high == b.high ? a.low < b.low : a.high < b.high; }
static B62_ALWAYS_INLINE bool u128_equal(u128 a, u128 b) { return a.high == b.high && a.low == b.low; }

static B62_ALWAYS_INLINE u128 u128_add(u128 a, u128 b) {
    const uint64_t low = a.low + b.low;
    return (u128){a.high + b.high + (low < a.low), low};
}

static B62_ALWAYS_INLINE u128 u128_sub(u128 a, u128 b) {
    return (u128){a.high - b.high - (a.low < b.low), a.low - b.low};
}

static B62_ALWAYS_INLINE u128 u128_shift_right_1_to_63(u128 a, uint32_t bits) {
    return (u128){a.high >> bits, a.low >> bits | a.high << (64 - bits)};
}

/* The whole product of two 64-bit integers, from 32-bit halves if the compiler has no 128-bit integers. */
static B62_ALWAYS_INLINE u128 u128_mul_64(uint64_t a, uint64_t b) {
#if defined __SIZEOF_INT128__ && !defined BASE62_NO_INT128
    const base62_u128 product = (base62_u128)a * b;
    return (u128){(uint64_t)(product >> 64), (uint64_t)product};
#else
    const uint64_t a0 = a & 0xffffffff, a1 = a >> 32, b0 = b & 0xffffffff, b1 = b >> 32;
    const uint64_t low = a0 * b0, middle = a1 * b0 + (low >> 32), other = a0 * b1 + (middle & 0xffffffff);
    return (u128){a1 * b1 + (middle >> 32) + (other >> 32), other << 32 | (low & 0xffffffff)};
#endif
}

/* Stores a * factor + summand, unless that is 2^128 or more. Returns whether it is stored. */
static B62_ALWAYS_INLINE bool u128_mul_add(u128 a, uint64_t factor, uint64_t summand, u128 *result) {
    const u128 low = u128_add(u128_mul_64(a.low, factor), u128_of(summand));
    const u128 high = u128_add(u128_mul_64(a.high, factor), u128_of(low.high));
    if (high.high != 0) return false;
    *result = (u128){high.low, low.low};
    return true;
}

/* Stores a * b, unless that is 2^128 or more. Returns whether it is stored. */
static B62_ALWAYS_INLINE bool u128_checked_mul(u128 a, u128 b, u128 *product) {
    /* If both upper halves are nonzero, the product overflows. Otherwise one cross product is 0. */
    const u128 low = u128_mul_64(a.low, b.low);
    const u128 cross = a.high == 0 ? u128_mul_64(a.low, b.high) : u128_mul_64(a.high, b.low);
    const uint64_t high = low.high + cross.low;
    if ((a.high != 0 && b.high != 0) || cross.high != 0 || high < low.high) return false;
    *product = (u128){high, low.low};
    return true;
}

static B62_ALWAYS_INLINE u128 u128_from_be_bytes(const uint8_t bytes[16]) {
    uint64_t high = 0, low = 0;
    for (size_t i = 0; i < 8; i++) {
        high = high * 256 + bytes[i];
        low = low * 256 + bytes[8 + i];
    }
    return (u128){high, low};
}

static B62_ALWAYS_INLINE void u128_to_be_bytes(u128 a, uint8_t bytes[16]) {
    uint64_t high = a.high, low = a.low;
    for (size_t i = 8; i > 0; i--) {
        bytes[i - 1] = (uint8_t)high;
        bytes[i + 7] = (uint8_t)low;
        high /= 256;
        low /= 256;
    }
}

static B62_ALWAYS_INLINE u128 u128_saturating_add(u128 a, u128 b) {
    const u128 sum = u128_add(a, b);
    return u128_less(sum, a) ? (u128){UINT64_C(0xffffffffffffffff), UINT64_C(0xffffffffffffffff)} : sum;
}

/* The index of the highest bit of an integer that is not 0. */
static B62_ALWAYS_INLINE uint32_t u64_ilog2(uint64_t n) {
    //@ assert requires: n != 0;
#ifdef __GNUC__
    return 63 - (uint32_t)__builtin_clzll(n);
#else
    uint32_t bits = 0;
    for (uint32_t step = 32; step != 0; step /= 2)
        if (n >> step != 0) {
            n >>= step;
            bits += step;
        }
    return bits;
#endif
}

/* Loops, which provers understand. Compilers turn them into memcpy and memset. */
static inline void copy_bytes(uint8_t *B62_RESTRICT to, const uint8_t *B62_RESTRICT from, size_t length) {
    for (size_t i = 0; i < length; i++) to[i] = from[i];
}

static inline void fill_bytes(uint8_t *to, uint8_t byte, size_t length) {
    for (size_t i = 0; i < length; i++) to[i] = byte;
}

/* -------------------- Tables -------------------- */

/* The characters of an alphabet by their digits, and the digit of each byte, 255 if it has none. */
typedef struct B62_MAY_ALIAS Tables {
    uint8_t letters[62];
    uint8_t digits[256];
} Tables;
typedef char Tables_are_base62_alphabet[sizeof(Tables) == sizeof(base62_alphabet) ? 1 : -1];

static const Tables B62_STANDARD = {
    .letters = {'0', '1', '2', '3', '4', '5', '6', '7', '8', '9', 'A', 'B', 'C', 'D', 'E', 'F', 'G', 'H', 'I', 'J', 'K',
                'L', 'M', 'N', 'O', 'P', 'Q', 'R', 'S', 'T', 'U', 'V', 'W', 'X', 'Y', 'Z', 'a', 'b', 'c', 'd', 'e', 'f',
                'g', 'h', 'i', 'j', 'k', 'l', 'm', 'n', 'o', 'p', 'q', 'r', 's', 't', 'u', 'v', 'w', 'x', 'y', 'z'},
    .digits = {255, 255, 255, 255, 255, 255, 255, 255, 255, 255, 255, 255, 255, 255, 255, 255, 255, 255, 255, 255,
               255, 255, 255, 255, 255, 255, 255, 255, 255, 255, 255, 255, 255, 255, 255, 255, 255, 255, 255, 255,
               255, 255, 255, 255, 255, 255, 255, 255, 0,   1,   2,   3,   4,   5,   6,   7,   8,   9,   255, 255,
               255, 255, 255, 255, 255, 10,  11,  12,  13,  14,  15,  16,  17,  18,  19,  20,  21,  22,  23,  24,
               25,  26,  27,  28,  29,  30,  31,  32,  33,  34,  35,  255, 255, 255, 255, 255, 255, 36,  37,  38,
               39,  40,  41,  42,  43,  44,  45,  46,  47,  48,  49,  50,  51,  52,  53,  54,  55,  56,  57,  58,
               59,  60,  61,  255, 255, 255, 255, 255, 255, 255, 255, 255, 255, 255, 255, 255, 255, 255, 255, 255,
               255, 255, 255, 255, 255, 255, 255, 255, 255, 255, 255, 255, 255, 255, 255, 255, 255, 255, 255, 255,
               255, 255, 255, 255, 255, 255, 255, 255, 255, 255, 255, 255, 255, 255, 255, 255, 255, 255, 255, 255,
               255, 255, 255, 255, 255, 255, 255, 255, 255, 255, 255, 255, 255, 255, 255, 255, 255, 255, 255, 255,
               255, 255, 255, 255, 255, 255, 255, 255, 255, 255, 255, 255, 255, 255, 255, 255, 255, 255, 255, 255,
               255, 255, 255, 255, 255, 255, 255, 255, 255, 255, 255, 255, 255, 255, 255, 255, 255, 255, 255, 255,
               255, 255, 255, 255, 255, 255, 255, 255, 255, 255, 255, 255, 255, 255, 255, 255},
};

static const Tables B62_ALTERNATIVE = {
    .letters = {'0', '1', '2', '3', '4', '5', '6', '7', '8', '9', 'a', 'b', 'c', 'd', 'e', 'f', 'g', 'h', 'i', 'j', 'k',
                'l', 'm', 'n', 'o', 'p', 'q', 'r', 's', 't', 'u', 'v', 'w', 'x', 'y', 'z', 'A', 'B', 'C', 'D', 'E', 'F',
                'G', 'H', 'I', 'J', 'K', 'L', 'M', 'N', 'O', 'P', 'Q', 'R', 'S', 'T', 'U', 'V', 'W', 'X', 'Y', 'Z'},
    .digits = {255, 255, 255, 255, 255, 255, 255, 255, 255, 255, 255, 255, 255, 255, 255, 255, 255, 255, 255, 255,
               255, 255, 255, 255, 255, 255, 255, 255, 255, 255, 255, 255, 255, 255, 255, 255, 255, 255, 255, 255,
               255, 255, 255, 255, 255, 255, 255, 255, 0,   1,   2,   3,   4,   5,   6,   7,   8,   9,   255, 255,
               255, 255, 255, 255, 255, 36,  37,  38,  39,  40,  41,  42,  43,  44,  45,  46,  47,  48,  49,  50,
               51,  52,  53,  54,  55,  56,  57,  58,  59,  60,  61,  255, 255, 255, 255, 255, 255, 10,  11,  12,
               13,  14,  15,  16,  17,  18,  19,  20,  21,  22,  23,  24,  25,  26,  27,  28,  29,  30,  31,  32,
               33,  34,  35,  255, 255, 255, 255, 255, 255, 255, 255, 255, 255, 255, 255, 255, 255, 255, 255, 255,
               255, 255, 255, 255, 255, 255, 255, 255, 255, 255, 255, 255, 255, 255, 255, 255, 255, 255, 255, 255,
               255, 255, 255, 255, 255, 255, 255, 255, 255, 255, 255, 255, 255, 255, 255, 255, 255, 255, 255, 255,
               255, 255, 255, 255, 255, 255, 255, 255, 255, 255, 255, 255, 255, 255, 255, 255, 255, 255, 255, 255,
               255, 255, 255, 255, 255, 255, 255, 255, 255, 255, 255, 255, 255, 255, 255, 255, 255, 255, 255, 255,
               255, 255, 255, 255, 255, 255, 255, 255, 255, 255, 255, 255, 255, 255, 255, 255, 255, 255, 255, 255,
               255, 255, 255, 255, 255, 255, 255, 255, 255, 255, 255, 255, 255, 255, 255, 255},
};

/* -------------------- Powers of 62 -------------------- */

#define B62_POWER_2 ((uint32_t)3844)
#define B62_POWER_3 ((uint32_t)238328)
#define B62_POWER_4 ((uint32_t)14776336)
#define B62_POWER_5 UINT64_C(916132832)
#define B62_POWER_10 UINT64_C(839299365868340224)

/* clang-format off */
/* At index k: the greatest number below 2^128 of at most k digits. */
static const u128 B62_GREATEST[23] = {{0, 0}, {0, 61}, {0, 3843}, {0, 238327}, {0, 14776335}, {0, 916132831},
    {0, UINT64_C(56800235583)}, {0, UINT64_C(3521614606207)}, {0, UINT64_C(218340105584895)},
    {0, UINT64_C(13537086546263551)}, {0, UINT64_C(839299365868340223)}, {0x2, 0xd227003d8d2af7ff},
    {0xae, 0xe5720ee830680fff}, {0x2a5b, 0x919f9c3bb933dfff}, {0xa422d, 0x44a7d676da903fff},
    {0x27c06f6, 0xa0a5f0c8eeef7fff}, {0x9a09afba, 0xe83050a9de00ffff}, {0x254e588f44, 0x3bb38923c43dffff},
    {0x908f972b286, 0x757b36a98703ffff}, {0x2302c69c73c90, 0x73d73d0eb2f7ffff},
    {0x87aac19e40aafc, 0xe20c98f580fffff}, {0x20db5ae453a9690b, 0x6bf0d0b753dfffff},
    {0xffffffffffffffff, 0xffffffffffffffff}};

/* At index k: the greatest number below 2^64 of at most k digits. */
static const uint64_t B62_GREATEST_NARROW[12] = {0, 61, 3843, 238327, 14776335, 916132831, UINT64_C(56800235583),
    UINT64_C(3521614606207), UINT64_C(218340105584895), UINT64_C(13537086546263551), UINT64_C(839299365868340223),
    UINT64_C(0xffffffffffffffff)};
/* clang-format on */

/* Returns the greatest number below 2^128 of at most k digits, for any k. */
static u128 greatest(size_t k) { return B62_GREATEST[k < 22 ? k : 22]; }

/* -------------------- The count of digits -------------------- */

/* 43 / 256 is so near log 2 / log 62 that the index of the highest bit gives the count of digits, or one less. */
static B62_ALWAYS_INLINE size_t narrow_count(uint64_t n) {
    if (n == 0) return 1;
    const uint32_t highest = u64_ilog2(n);
    const size_t estimate = (highest * 43 >> 8) + 1;
    return estimate + (n > B62_GREATEST_NARROW[estimate]);
}

/* Returns how many digits a number has, from 1 to 22. */
static B62_ALWAYS_INLINE size_t digit_count(u128 n) {
    if (n.high == 0) return narrow_count(n.low);
    const uint32_t highest = u64_ilog2(n.high) + 64;
    const size_t estimate = (highest * 43 >> 8) + 1;
    return estimate + u128_less(B62_GREATEST[estimate], n);
}

/* -------------------- Encoding -------------------- */

/*
 * A function write_.. writes as many digits as its name or count says at the start of a buffer. Both characters of a
 * pair are loaded before one is stored: compilers have to assume that the buffer overlaps the tables.
 *
 * Division by 62^10 or 62^20 splits a number into parts. Its result is a u128 in fixed point: the upper half is the
 * quotient, and the lower half is a fraction, in units of 1 / 2^64. The ten digits of a fraction f are those of
 * f * 62^10 / 2^64, rounded down. The upper half of f * 62 is the first of them, and the lower half is the fraction of
 * the others.
 */

static B62_ALWAYS_INLINE void write_pair(const Tables *tables, uint64_t first, uint64_t second, uint8_t *buffer) {
    //@ assert requires: first < 62 && second < 62;
    const uint8_t a = tables->letters[first], b = tables->letters[second];
    buffer[0] = a;
    buffer[1] = b;
}

/* Writes the first five digits of a fraction. */
static B62_ALWAYS_INLINE void write_5(const Tables *tables, uint64_t fraction, uint8_t *buffer) {
    const u128 first = u128_mul_64(fraction, 62);
    buffer[0] = tables->letters[first.high];
    const u128 second = u128_mul_64(first.low, 62), third = u128_mul_64(second.low, 62);
    write_pair(tables, second.high, third.high, buffer + 1);
    const u128 fourth = u128_mul_64(third.low, 62), fifth = u128_mul_64(fourth.low, 62);
    write_pair(tables, fourth.high, fifth.high, buffer + 3);
}

/* Writes the ten digits of a fraction. The last five do not wait for the first five. */
static B62_ALWAYS_INLINE void write_10(const Tables *tables, uint64_t fraction, uint8_t *buffer) {
    write_5(tables, fraction, buffer);
    write_5(tables, fraction * B62_POWER_5, buffer + 5);
}

/* Writes the twenty digits of two fractions: the lower one first, since it is computed first. */
static B62_ALWAYS_INLINE void write_20(const Tables *tables, uint64_t high, uint64_t low, uint8_t *buffer) {
    write_10(tables, low, buffer + 10);
    write_10(tables, high, buffer);
}

/* Writes one or two digits. If count is 1, the second overwrites the first, which is a zero. */
static B62_ALWAYS_INLINE void write_1_or_2(const Tables *tables, uint32_t n, size_t count, uint8_t *buffer) {
    //@ assert requires: 1 <= count && count <= 2;
    /* n / 62, for these n, without a product of 64 bits. */
    const uint32_t quotient = (n * 4229) >> 18;
    const uint64_t rest = n - quotient * 62;
    const uint8_t first = tables->letters[quotient], second = tables->letters[rest];
    buffer[0] = first;
    buffer[count - 1] = second;
}

static B62_ALWAYS_INLINE void write_4(const Tables *tables, uint32_t n, uint8_t *buffer) {
    //@ assert requires: n < B62_POWER_4;
    const uint32_t quotient = n / B62_POWER_2;
    write_1_or_2(tables, n - quotient * B62_POWER_2, 2, buffer + 2);
    write_1_or_2(tables, quotient, 2, buffer);
}

static B62_ALWAYS_INLINE void write_up_to_5(const Tables *tables, uint32_t n, size_t count, uint8_t *buffer) {
    //@ assert requires: 1 <= count && count <= 5;
    if (count > 4) {
        const uint32_t quotient = n / B62_POWER_4;
        write_4(tables, n - quotient * B62_POWER_4, buffer + 1);
        write_1_or_2(tables, quotient, 1, buffer);
    } else if (count > 2) {
        const uint32_t quotient = n / B62_POWER_2;
        write_1_or_2(tables, n - quotient * B62_POWER_2, 2, buffer + (count - 2));
        write_1_or_2(tables, quotient, count - 2, buffer);
    } else {
        write_1_or_2(tables, n, count, buffer);
    }
}

static B62_ALWAYS_INLINE void write_up_to_9(const Tables *tables, uint64_t n, size_t count, uint8_t *buffer) {
    //@ assert requires: 1 <= count && count <= 9;
    if (count > 4) {
        const uint64_t quotient = n / B62_POWER_4;
        const uint32_t last = (uint32_t)(n - quotient * B62_POWER_4);
        write_4(tables, last, buffer + (count - 4));
        write_up_to_5(tables, (uint32_t)quotient, count - 4, buffer);
    } else {
        write_up_to_5(tables, (uint32_t)n, count, buffer);
    }
}

/*
 * Returns n / 62^10, at most two units above it: 1 is added for what is rounded down. Since 2^64 / 62^10 is above 21,
 * at least 21 fractions from n * 2^64 / 62^10 upwards have the same ten digits. 2^64 plus the factor is 2^124 / 62^10,
 * rounded up.
 */
static B62_ALWAYS_INLINE u128 fraction_of(uint64_t n) {
    //@ assert requires: n < 0x1000000000000000;
    const uint64_t scaled = n * 16, upper = u128_mul_64(scaled, UINT64_C(6893020016967578278)).high;
    return u128_add(u128_of(scaled + 1), u128_of(upper));
}

/* Returns n / 62^10, at most five units above it. The factor is 2^123 / 62^10 + 0.12. */
static B62_ALWAYS_INLINE u128 divide_narrow_by_62_10(uint64_t n) {
    return u128_add(u128_shift_right_1_to_63(u128_mul_64(n, UINT64_C(12669882045338564947)), 59), u128_of(1));
}

/*
 * Divides a number of at most 19 digits by 62^10. The factor is 2^120 / 62^10, rounded down. The estimate is the
 * quotient, or one less for some remainders below 2^57: then the upper half of fraction_of is 1.
 */
static B62_ALWAYS_INLINE u128 divide_by_62_10(u128 n) {
    const uint64_t upper = u128_shift_right_1_to_63(n, 56).low;
    const uint64_t estimate = u128_mul_64(upper, UINT64_C(1583735255667320618)).high;
    const u128 rest = fraction_of(n.low - estimate * B62_POWER_10);
    return (u128){estimate + rest.high, rest.low};
}

/*
 * Returns the fraction of the last ten digits: that of n / 62^10, at most eight units above it. Each 2^64 in n adds
 * 2^128 / 62^10 units: 21 * 2^64, which wraps to 0, plus the first factor, plus the second factor / 2^64, rounded up.
 * The third factor is 2^123 / 62^10 + 0.12.
 */
static B62_ALWAYS_INLINE uint64_t last_10_as_fraction(u128 n) {
    const uint64_t first = n.high * UINT64_C(18054599902933494364);
    const uint64_t second = u128_mul_64(n.high, UINT64_C(2913576609842229563)).high;
    const uint64_t third = u128_shift_right_1_to_63(u128_mul_64(n.low, UINT64_C(12669882045338564947)), 59).low;
    return first + second + third + 2;
}

/*
 * Returns n / 62^20, at most five units above it: 4 are added for what is rounded down. Each 2^64 in n adds
 * 2^128 / 62^20 units: 483, plus the factor / 2^64, rounded up. For n.low, 483 is enough.
 */
static B62_ALWAYS_INLINE u128 scaled_by_62_20(u128 n) {
    const uint64_t rest = u128_mul_64(n.high, UINT64_C(1200736830183971319)).high;
    return u128_add(u128_mul_64(n.high, 483), u128_of(rest + ((n.low >> 32) * 483 >> 32) + 4));
}

/*
 * Divides by 62^20, given low, the fraction of the last ten digits. The fraction of the result is that of the ten
 * digits before them. Let g be low / 2^64. The last ten digits add at most 22 * g units to it, since 2^64 / 62^10 is
 * below 22. Subtracting low >> 60, which is 16 * g rounded down, leaves at most seven of these. With the five of
 * scaled_by_62_20 that is twelve; up to 20 the digits are right.
 */
static B62_ALWAYS_INLINE u128 divide_by_62_20(u128 n, uint64_t low) {
    return u128_sub(scaled_by_62_20(n), u128_of(low >> 60));
}

static void write_narrow(const Tables *tables, uint64_t n, size_t count, uint8_t *buffer) {
    //@ assert requires: 1 <= count && count <= 11;
    if (count < 10) {
        write_up_to_9(tables, n, count, buffer);
    } else {
        const u128 parts = divide_narrow_by_62_10(n);
        /* If there are ten digits, the first of them overwrites this one, which is a zero. */
        buffer[0] = tables->letters[parts.high];
        write_10(tables, parts.low, buffer + (count - 10));
    }
}

/* Writes a number of 2^64 or more. */
static void write_wide(const Tables *tables, u128 n, size_t count, uint8_t *buffer) {
    //@ assert requires: 11 <= count && count <= 22;
    if (count > 20) {
        const uint64_t low = last_10_as_fraction(n);
        const u128 parts = divide_by_62_20(n, low);
        write_1_or_2(tables, (uint32_t)parts.high, count - 20, buffer);
        write_20(tables, parts.low, low, buffer + (count - 20));
    } else if (count == 20) {
        const uint64_t low = last_10_as_fraction(n);
        write_20(tables, divide_by_62_20(n, low).low, low, buffer);
    } else {
        const u128 parts = divide_by_62_10(n);
        write_10(tables, parts.low, buffer + (count - 10));
        write_up_to_9(tables, parts.high, count - 10, buffer);
    }
}

static B62_ALWAYS_INLINE void write_number(const Tables *tables, u128 n, size_t count, uint8_t *buffer) {
    if (n.high == 0) {
        write_narrow(tables, n.low, count, buffer);
    } else {
        write_wide(tables, n, count, buffer);
    }
}

static B62_ALWAYS_INLINE size_t encode_over(const Tables *tables, u128 n, uint8_t *buffer, size_t size) {
    const size_t count = digit_count(n);
    if (size < count) return 0;
    write_number(tables, n, count, buffer);
    return count;
}

/* Writes a number of count digits as width characters, padded with leading zeros. */
static void write_padded(const Tables *tables, u128 n, size_t count, uint8_t *places, size_t width) {
    //@ assert requires: count <= width;
    fill_bytes(places, tables->letters[0], width - count);
    write_number(tables, n, count, places + (width - count));
}

static B62_ALWAYS_INLINE size_t encode_fixed_over(const Tables *tables, u128 n, uint8_t *places, size_t width) {
    const size_t count = digit_count(n);
    if (width < count) return 0;
    write_padded(tables, n, count, places, width);
    return width;
}

size_t base62_encode(base62_number number, char *buffer, size_t size) {
    return encode_over(&B62_STANDARD, number, (uint8_t *)buffer, size);
}

size_t base62_encode_alternative(base62_number number, char *buffer, size_t size) {
    return encode_over(&B62_ALTERNATIVE, number, (uint8_t *)buffer, size);
}

size_t base62_encode_with(const base62_alphabet *alphabet, base62_number number, char *buffer, size_t size) {
    return encode_over((const Tables *)alphabet, number, (uint8_t *)buffer, size);
}

size_t base62_encode_fixed(base62_number number, char *places, size_t width) {
    return encode_fixed_over(&B62_STANDARD, number, (uint8_t *)places, width);
}

size_t base62_encode_fixed_with(const base62_alphabet *alphabet, base62_number number, char *places, size_t width) {
    return encode_fixed_over((const Tables *)alphabet, number, (uint8_t *)places, width);
}

void base62_encode_key(base62_number number, char key[BASE62_KEY_LENGTH]) {
    write_padded(&B62_STANDARD, number, digit_count(number), (uint8_t *)key, BASE62_KEY_LENGTH);
}

size_t base62_digit_count(base62_number number) { return digit_count(number); }

/* -------------------- Decoding -------------------- */

/*
 * At most 22 digits are read, in parts of at most ten. A function read_.. returns the number of a part, or B62_NO_VALUE
 * if a byte is invalid. Only then is this byte looked for. A byte is invalid if its entry in the table exceeds 63: the
 * bitwise OR of several entries does if and only if one of them does.
 */
#define B62_NO_VALUE UINT64_C(0xffffffffffffffff)

/* If the first ten of 22 digits exceed this number, all 22 exceed 2^128 - 1, whatever the others are: base62_decode
   reports that even if one of the others is invalid. */
#define B62_GREATEST_FIRST_10 UINT64_C(105472483207813235)

/* Appends at most five digits to a number of at most five digits, below 64^5. */
static B62_ALWAYS_INLINE uint64_t read_up_to_5_more(const Tables *tables, uint64_t number, const uint8_t *text,
                                                    size_t count) {
    //@ assert requires: number < 0x40000000 && count <= 5;
    for (size_t i = 0; i < count; i++) {
        const uint8_t digit = tables->digits[text[i]];
        if (digit > 63) return B62_NO_VALUE;
        number = number * 62 + digit;
    }
    return number;
}

static B62_ALWAYS_INLINE uint64_t read_5(const Tables *tables, const uint8_t *text) {
    const uint32_t a = tables->digits[text[0]], b = tables->digits[text[1]], c = tables->digits[text[2]];
    const uint32_t d = tables->digits[text[3]], e = tables->digits[text[4]];
    if ((a | b | c | d | e) > 63) return B62_NO_VALUE;
    return a * B62_POWER_4 + b * B62_POWER_3 + c * B62_POWER_2 + d * 62 + e;
}

static B62_ALWAYS_INLINE uint64_t read_10(const Tables *tables, const uint8_t *text) {
    const uint64_t high = read_5(tables, text), low = read_5(tables, text + 5);
    if (high == B62_NO_VALUE || low == B62_NO_VALUE) return B62_NO_VALUE;
    return high * B62_POWER_5 + low;
}

static B62_ALWAYS_INLINE uint64_t read_up_to_10(const Tables *tables, const uint8_t *text, size_t count) {
    //@ assert requires: count <= 10;
    if (count < 5) return read_up_to_5_more(tables, 0, text, count);
    const uint64_t first = read_5(tables, text);
    if (first == B62_NO_VALUE) return B62_NO_VALUE;
    return read_up_to_5_more(tables, first, text + 5, count - 5);
}

/* Stores the number of at most ten digits, unless a byte is invalid. Returns whether it is stored. */
static B62_ALWAYS_INLINE bool decode_up_to_10(const Tables *tables, const uint8_t *text, size_t count, u128 *number) {
    //@ assert requires: count <= 10;
    const uint64_t all = read_up_to_10(tables, text, count);
    if (all == B62_NO_VALUE) return false;
    *number = u128_of(all);
    return true;
}

static B62_ALWAYS_INLINE bool decode_11_to_20(const Tables *tables, const uint8_t *text, size_t count, u128 *number) {
    //@ assert requires: 10 < count && count <= 20;
    const uint64_t high = read_up_to_10(tables, text, count - 10);
    if (high == B62_NO_VALUE) return false;
    const uint64_t low = read_10(tables, text + (count - 10));
    if (low == B62_NO_VALUE) return false;
    *number = u128_add(u128_mul_64(high, B62_POWER_10), u128_of(low));
    return true;
}

/* Stores the number of 21 or 22 digits, unless a byte is invalid or the number is 2^128 or more. */
static B62_ALWAYS_INLINE base62_status decode_21_or_22(const Tables *tables, const uint8_t *text, size_t count,
                                                       u128 *number) {
    //@ assert requires: 20 < count && count <= 22;
    const uint64_t high = read_up_to_5_more(tables, 0, text, count - 20);
    if (high == B62_NO_VALUE) return BASE62_INVALID_BYTE;
    const uint64_t middle = read_10(tables, text + (count - 20));
    if (middle == B62_NO_VALUE) return BASE62_INVALID_BYTE;
    const uint64_t low = read_10(tables, text + (count - 10));
    if (low == B62_NO_VALUE) return BASE62_INVALID_BYTE;
    const u128 upper = u128_add(u128_mul_64(high, B62_POWER_10), u128_of(middle));
    return u128_mul_add(upper, B62_POWER_10, low, number) ? BASE62_OK : BASE62_OVERFLOW;
}

static B62_ALWAYS_INLINE base62_status decode_up_to_22(const Tables *tables, const uint8_t *text, size_t count,
                                                       u128 *number) {
    //@ assert requires: count <= 22;
    if (count > 20) return decode_21_or_22(tables, text, count, number);
    const bool is_stored =
        count > 10 ? decode_11_to_20(tables, text, count, number) : decode_up_to_10(tables, text, count, number);
    return is_stored ? BASE62_OK : BASE62_INVALID_BYTE;
}

/* Returns how many zeros a text begins with. */
static B62_ALWAYS_INLINE size_t count_zeros(const Tables *tables, const uint8_t *text, size_t length) {
    //@ assert requires: 0 < length;
    /* Most texts have none. Without this test, code by GCC is slower for short ones. */
    if (text[0] != tables->letters[0]) return 0;
    size_t zeros = 1;
    while (zeros < length && text[zeros] == tables->letters[0]) zeros++;
    return zeros;
}

/* Returns how many valid bytes a text begins with: the index of its first invalid one, or its length. */
static B62_ALWAYS_INLINE size_t count_valid(const Tables *tables, const uint8_t *text, size_t length) {
    size_t count = 0;
    while (count < length && tables->digits[text[count]] <= 63) count++;
    return count;
}

static base62_status store_bad_byte(const uint8_t *text, size_t index, base62_bad_byte *bad) {
    bad->byte = text[index];
    bad->index = index;
    return BASE62_INVALID_BYTE;
}

/* Returns the error of a text that has an invalid byte among the at most 22 that follow its leading zeros. If another
   thread has made all of them valid since, it takes the last one for invalid: no byte behind the text is read. */
static base62_status find_error(const Tables *tables, const uint8_t *text, size_t length, size_t zeros,
                                base62_bad_byte *bad) {
    //@ assert requires: zeros < length && length - zeros <= 22;
    const size_t count = length - zeros;
    const uint8_t *rest = text + zeros;
    const size_t valid = count_valid(tables, rest, count - 1);
    if (count == 22 && valid >= 10) {
        const uint64_t first = read_10(tables, rest);
        if (first > B62_GREATEST_FIRST_10) return BASE62_OVERFLOW;
    }
    return store_bad_byte(text, zeros + valid, bad);
}

/* Decodes a text that is not empty, given its count of leading zeros. */
static base62_status decode_after_zeros(const Tables *tables, const uint8_t *text, size_t length, size_t zeros,
                                        base62_number *number, base62_bad_byte *bad) {
    const size_t count = length - zeros;
    if (count > BASE62_MAX_DIGITS) return BASE62_OVERFLOW;
    const base62_status status = decode_up_to_22(tables, text + zeros, count, number);
    if (status == BASE62_INVALID_BYTE) return find_error(tables, text, length, zeros, bad);
    return status;
}

/* Decodes a text. At most 20 digits are read without a call, since most texts are that short. */
static B62_ALWAYS_INLINE base62_status decode_over(const Tables *tables, const uint8_t *text, size_t length,
                                                   base62_number *number, base62_bad_byte *bad) {
    if (length == 0) return BASE62_EMPTY_INPUT;
    const size_t zeros = count_zeros(tables, text, length), count = length - zeros;
    if (count <= 10) {
        if (decode_up_to_10(tables, text + zeros, count, number)) return BASE62_OK;
    } else if (count <= 20) {
        if (decode_11_to_20(tables, text + zeros, count, number)) return BASE62_OK;
    } else {
        return decode_after_zeros(tables, text, length, zeros, number, bad);
    }
    return find_error(tables, text, length, zeros, bad);
}

/* Returns the status of a text that has a leading zero and other characters after it, so is not canonical. */
static base62_status decode_padded(const Tables *tables, const uint8_t *text, size_t length, base62_bad_byte *bad) {
    base62_number number = {0, 0};
    const size_t zeros = count_zeros(tables, text, length);
    const base62_status status = decode_after_zeros(tables, text, length, zeros, &number, bad);
    if (status == BASE62_OK) return BASE62_NOT_CANONICAL;
    return status;
}

/* Like decode_over, but rejects a leading zero that other characters follow. */
static B62_ALWAYS_INLINE base62_status decode_canonical_over(const Tables *tables, const uint8_t *text, size_t length,
                                                             base62_number *number, base62_bad_byte *bad) {
    if (length > 1 && text[0] == tables->letters[0]) return decode_padded(tables, text, length, bad);
    return decode_over(tables, text, length, number, bad);
}

/* Like decode_over, but first rejects a text of another length than the width. */
static B62_ALWAYS_INLINE base62_status decode_fixed_over(const Tables *tables, const uint8_t *text, size_t length,
                                                         size_t width, base62_number *number, base62_bad_byte *bad) {
    if (length != width) return BASE62_WRONG_LENGTH;
    return decode_over(tables, text, length, number, bad);
}

base62_status base62_decode(const char *text, size_t length, base62_number *number, base62_bad_byte *bad) {
    return decode_over(&B62_STANDARD, (const uint8_t *)text, length, number, bad);
}

base62_status base62_decode_alternative(const char *text, size_t length, base62_number *number, base62_bad_byte *bad) {
    return decode_over(&B62_ALTERNATIVE, (const uint8_t *)text, length, number, bad);
}

base62_status base62_decode_with(const base62_alphabet *alphabet, const char *text, size_t length,
                                 base62_number *number, base62_bad_byte *bad) {
    return decode_over((const Tables *)alphabet, (const uint8_t *)text, length, number, bad);
}

base62_status base62_decode_canonical(const char *text, size_t length, base62_number *number, base62_bad_byte *bad) {
    return decode_canonical_over(&B62_STANDARD, (const uint8_t *)text, length, number, bad);
}

base62_status base62_decode_canonical_with(const base62_alphabet *alphabet, const char *text, size_t length,
                                           base62_number *number, base62_bad_byte *bad) {
    return decode_canonical_over((const Tables *)alphabet, (const uint8_t *)text, length, number, bad);
}

base62_status base62_decode_fixed(const char *text, size_t length, size_t width, base62_number *number,
                                  base62_bad_byte *bad) {
    return decode_fixed_over(&B62_STANDARD, (const uint8_t *)text, length, width, number, bad);
}

base62_status base62_decode_fixed_with(const base62_alphabet *alphabet, const char *text, size_t length, size_t width,
                                       base62_number *number, base62_bad_byte *bad) {
    return decode_fixed_over((const Tables *)alphabet, (const uint8_t *)text, length, width, number, bad);
}

base62_status base62_decode_key(const char *text, size_t length, base62_number *number, base62_bad_byte *bad) {
    return decode_fixed_over(&B62_STANDARD, (const uint8_t *)text, length, BASE62_KEY_LENGTH, number, bad);
}

/* -------------------- Ranges of prefixes -------------------- */

/*
 * Stores the least and the greatest number whose text of this width begins with a prefix of this value and length.
 * Returns whether there are such numbers.
 */
static bool find_ends(u128 value, size_t length, size_t width, base62_range *range) {
    if (width == 0 || length > width) return false;
    const u128 last = greatest(width - length);
    u128 least = {0, 0};
    if (!u128_equal(value, u128_of(0))) {
        /* A span that wraps to 0 is 2^128, so the product is 2^128 or more. */
        const u128 span = u128_add(last, u128_of(1));
        if (u128_equal(span, u128_of(0)) || !u128_checked_mul(value, span, &least)) return false;
    }
    range->least = least;
    range->greatest = u128_saturating_add(least, last);
    return true;
}

/* Stores the number of a prefix that is not empty, and may be longer than 22 characters. */
static base62_status decode_prefix(const Tables *tables, const uint8_t *prefix, size_t length, base62_number *number,
                                   base62_bad_byte *bad) {
    const size_t zeros = count_zeros(tables, prefix, length), count = length - zeros;
    if (count <= BASE62_MAX_DIGITS) {
        const base62_status status = decode_up_to_22(tables, prefix + zeros, count, number);
        if (status == BASE62_OK) return BASE62_OK;
    }
    /* An invalid byte is reported even if the number would be 2^128 or more. */
    const size_t valid = count_valid(tables, prefix, length);
    if (valid < length) return store_bad_byte(prefix, valid, bad);
    return BASE62_NO_MATCH;
}

static base62_status range_over(const Tables *tables, const uint8_t *prefix, size_t length, size_t width,
                                base62_range *range, base62_bad_byte *bad) {
    base62_number number = {0, 0};
    if (length > 0) {
        const base62_status status = decode_prefix(tables, prefix, length, &number, bad);
        if (status != BASE62_OK) return status;
    }
    if (!find_ends(number, length, width, range)) return BASE62_NO_MATCH;
    return BASE62_OK;
}

base62_status base62_key_range(const char *prefix, size_t length, base62_range *range, base62_bad_byte *bad) {
    return range_over(&B62_STANDARD, (const uint8_t *)prefix, length, BASE62_KEY_LENGTH, range, bad);
}

base62_status base62_prefix_range(const char *prefix, size_t length, size_t width, base62_range *range,
                                  base62_bad_byte *bad) {
    return range_over(&B62_STANDARD, (const uint8_t *)prefix, length, width, range, bad);
}

base62_status base62_prefix_range_with(const base62_alphabet *alphabet, const char *prefix, size_t length, size_t width,
                                       base62_range *range, base62_bad_byte *bad) {
    return range_over((const Tables *)alphabet, (const uint8_t *)prefix, length, width, range, bad);
}

/* -------------------- Custom alphabets and UUIDs -------------------- */

/* *alphabet is not read, so callers can pass uninitialized memory. */
base62_status base62_alphabet_init(base62_alphabet *alphabet, const char characters[BASE62_ALPHABET_LENGTH],
                                   base62_bad_byte *bad) {
    const uint8_t *bytes = (const uint8_t *)characters;
    uint8_t digits[256] = {0};
    fill_bytes(digits, 255, sizeof digits);
    for (size_t i = 0; i < 62; i++) {
        const uint8_t byte = bytes[i];
        if (digits[byte] != 255) {
            bad->index = i;
            bad->byte = byte;
            return BASE62_REPEATED_CHARACTER;
        }
        digits[byte] = (uint8_t)i;
    }
    copy_bytes(alphabet->bytes, bytes, 62);
    copy_bytes(alphabet->bytes + 62, digits, sizeof digits);
    return BASE62_OK;
}

base62_number base62_from_uuid(const unsigned char uuid[BASE62_UUID_LENGTH]) { return u128_from_be_bytes(uuid); }

void base62_to_uuid(base62_number number, unsigned char uuid[BASE62_UUID_LENGTH]) { u128_to_be_bytes(number, uuid); }

/* -------------------- Strings for UUIDs -------------------- */

static const uint8_t B62_URN_TEXT[] = "urn:uuid:";
/* Where the two digits of each byte are in a string with hyphens. */
static const uint8_t B62_PAIR_INDEXES[BASE62_UUID_LENGTH] = {0, 2, 4, 6, 9, 11, 14, 16, 19, 21, 24, 26, 28, 30, 32, 34};
static const uint8_t B62_HEX_DIGITS[16] = {'0', '1', '2', '3', '4', '5', '6', '7',
                                           '8', '9', 'a', 'b', 'c', 'd', 'e', 'f'};
/* The value of each hexadecimal digit, and 255 for any other byte. */
static const uint8_t B62_HEX_VALUES[256] = {
    255, 255, 255, 255, 255, 255, 255, 255, 255, 255, 255, 255, 255, 255, 255, 255, 255, 255, 255, 255, 255, 255,
    255, 255, 255, 255, 255, 255, 255, 255, 255, 255, 255, 255, 255, 255, 255, 255, 255, 255, 255, 255, 255, 255,
    255, 255, 255, 255, 0,   1,   2,   3,   4,   5,   6,   7,   8,   9,   255, 255, 255, 255, 255, 255, 255, 10,
    11,  12,  13,  14,  15,  255, 255, 255, 255, 255, 255, 255, 255, 255, 255, 255, 255, 255, 255, 255, 255, 255,
    255, 255, 255, 255, 255, 255, 255, 255, 255, 10,  11,  12,  13,  14,  15,  255, 255, 255, 255, 255, 255, 255,
    255, 255, 255, 255, 255, 255, 255, 255, 255, 255, 255, 255, 255, 255, 255, 255, 255, 255, 255, 255, 255, 255,
    255, 255, 255, 255, 255, 255, 255, 255, 255, 255, 255, 255, 255, 255, 255, 255, 255, 255, 255, 255, 255, 255,
    255, 255, 255, 255, 255, 255, 255, 255, 255, 255, 255, 255, 255, 255, 255, 255, 255, 255, 255, 255, 255, 255,
    255, 255, 255, 255, 255, 255, 255, 255, 255, 255, 255, 255, 255, 255, 255, 255, 255, 255, 255, 255, 255, 255,
    255, 255, 255, 255, 255, 255, 255, 255, 255, 255, 255, 255, 255, 255, 255, 255, 255, 255, 255, 255, 255, 255,
    255, 255, 255, 255, 255, 255, 255, 255, 255, 255, 255, 255, 255, 255, 255, 255, 255, 255, 255, 255, 255, 255,
    255, 255, 255, 255, 255, 255, 255, 255, 255, 255, 255, 255, 255, 255};

/* Returns the character of a hexadecimal digit. */
static uint8_t hex_digit(uint32_t digit) {
    //@ assert requires: digit < 16;
    return B62_HEX_DIGITS[digit];
}

/* Returns an uppercase character of ASCII in lowercase, and any other byte as it is. */
static uint8_t lower(uint8_t byte) { return byte >= 'A' && byte <= 'Z' ? (uint8_t)(byte + 32) : byte; }

/* Returns the value of a hexadecimal digit in either case, or 255 for any other byte. */
static B62_ALWAYS_INLINE uint32_t hex_value(uint8_t byte) { return B62_HEX_VALUES[byte]; }

/* Returns the index of the two digits of a byte in a string for a UUID, with hyphens or without. */
static B62_ALWAYS_INLINE size_t pair_index(size_t byte, bool hyphens) {
    //@ assert requires: byte < 16;
    return hyphens ? B62_PAIR_INDEXES[byte] : byte * 2;
}

/* Stores the bytes of 32 digits from start on, unless one is invalid: then the bitwise OR of all exceeds 63. Returns
   whether they are stored. */
static B62_ALWAYS_INLINE bool read_pairs(const uint8_t *text, size_t start, bool hyphens, uint8_t *uuid) {
    uint8_t bytes[BASE62_UUID_LENGTH] = {0};
    uint32_t all = 0;
    for (size_t i = 0; i < BASE62_UUID_LENGTH; i++) {
        const size_t index = start + pair_index(i, hyphens);
        const uint32_t high = hex_value(text[index]), low = hex_value(text[index + 1]);
        all = all | high | low;
        bytes[i] = (uint8_t)(high * 16 + low);
    }
    if (all > 63) return false;
    copy_bytes(uuid, bytes, BASE62_UUID_LENGTH);
    return true;
}

/* Returns whether a text begins with "urn:uuid:" in either case. */
static bool has_urn(const uint8_t *text, size_t length) {
    if (length < 9) return false;
    for (size_t i = 0; i < 9; i++)
        if (lower(text[i]) != B62_URN_TEXT[i]) return false;
    return true;
}

static bool has_hyphens(const uint8_t *text, size_t start) {
    return text[start + 8] == '-' && text[start + 13] == '-' && text[start + 18] == '-' && text[start + 23] == '-';
}

static bool is_in_braces(const uint8_t *text, size_t length) {
    return length > 1 && text[0] == '{' && text[length - 1] == '}';
}

/* Stores the UUID whose digits are the characters from start on, with hyphens if they are 36. Returns whether they are
   those of a UUID. */
static bool read_uuid(const uint8_t *text, size_t start, size_t count, uint8_t *uuid) {
    if (count == 32) return read_pairs(text, start, false, uuid);
    if (count != BASE62_UUID_STRING_LENGTH || !has_hyphens(text, start)) return false;
    return read_pairs(text, start, true, uuid);
}

base62_status base62_uuid_from_string(const char *string, size_t length, unsigned char uuid[BASE62_UUID_LENGTH]) {
    const uint8_t *text = (const uint8_t *)string;
    const bool is_stored = is_in_braces(text, length) ? read_uuid(text, 1, length - 2, uuid)
                           : has_urn(text, length)    ? read_uuid(text, 9, length - 9, uuid)
                                                      : read_uuid(text, 0, length, uuid);
    return is_stored ? BASE62_OK : BASE62_INVALID_UUID;
}

void base62_uuid_to_string(const unsigned char uuid[BASE62_UUID_LENGTH], char string[BASE62_UUID_STRING_LENGTH]) {
    uint8_t *text = (uint8_t *)string;
    fill_bytes(text, '-', BASE62_UUID_STRING_LENGTH);
    for (size_t i = 0; i < BASE62_UUID_LENGTH; i++) {
        const size_t index = pair_index(i, true);
        text[index] = hex_digit(uuid[i] / 16);
        text[index + 1] = hex_digit(uuid[i] % 16);
    }
}

/* -------------------- Messages of errors -------------------- */

static const uint8_t B62_TOO_SMALL_TEXT[] = "Buffer too small to encode the number";
static const uint8_t B62_EMPTY_TEXT[] = "Encoded input is an empty string";
static const uint8_t B62_INVALID_TEXT[] = "Encoded input contains the invalid ";
static const uint8_t B62_OVERFLOW_TEXT[] = "Decoded number is 2^128 or more";
static const uint8_t B62_NO_MATCH_TEXT[] = "No string of this width begins with the prefix";
static const uint8_t B62_REPEATED_TEXT[] = "Alphabet repeats the ";
static const uint8_t B62_LEADING_ZERO_TEXT[] = "Encoded input has a leading zero";
static const uint8_t B62_WRONG_LENGTH_TEXT[] = "Encoded input does not have the given width";
static const uint8_t B62_INVALID_UUID_TEXT[] = "Not a UUID";
static const uint8_t B62_OUT_OF_RANGE_TEXT[] = "Number is 2^64 or more";
static const uint8_t B62_BYTE_TEXT[] = "byte b'";
static const uint8_t B62_INDEX_TEXT[] = "' at index ";

/* The bytes of one of these texts, and how many they are. */
#define B62_TEXT(text) text, sizeof(text) - 1

/* A function append.. appends to the first length bytes of a message, and returns its new length. */
static size_t append(uint8_t *message, size_t length, const uint8_t *part, size_t part_length) {
    copy_bytes(message + length, part, part_length);
    return length + part_length;
}

/* Appends a printable ASCII character as itself, but quotes, backslashes, tabs and ends of lines as in C. Appends any
   other byte as \x and two hexadecimal digits. */
static size_t append_escaped(uint8_t *message, size_t length, uint8_t byte) {
    const bool is_printable = byte >= ' ' && byte <= '~';
    if (is_printable && byte != '"' && byte != '\'' && byte != '\\') {
        message[length] = byte;
        return length + 1;
    }
    message[length] = '\\';
    if (is_printable || byte == '\t' || byte == '\n' || byte == '\r') {
        message[length + 1] = byte == '\t' ? 't' : byte == '\n' ? 'n' : byte == '\r' ? 'r' : byte;
        return length + 2;
    }
    message[length + 1] = 'x';
    message[length + 2] = hex_digit(byte / 16);
    message[length + 3] = hex_digit(byte % 16);
    return length + 4;
}

static size_t append_decimal(uint8_t *message, size_t length, size_t number) {
    /* From the last digit to the first. */
    uint8_t decimals[20] = {0};
    size_t start = 19;
    while (number >= 10) {
        decimals[start] = (uint8_t)('0' + number % 10);
        number /= 10;
        start -= 1;
    }
    decimals[start] = (uint8_t)('0' + number);
    return append(message, length, decimals + start, 20 - start);
}

static size_t append_byte_at_index(uint8_t *message, size_t length, uint8_t byte, size_t index) {
    const size_t byte_start = append(message, length, B62_TEXT(B62_BYTE_TEXT));
    const size_t byte_end = append_escaped(message, byte_start, byte);
    const size_t index_start = append(message, byte_end, B62_TEXT(B62_INDEX_TEXT));
    return append_decimal(message, index_start, index);
}

/* Writes the message of a status, and returns its length, at most BASE62_MAX_ERROR_MESSAGE. */
static size_t format_message(base62_status status, base62_bad_byte bad, uint8_t *message) {
    if (status == BASE62_BUFFER_TOO_SMALL) return append(message, 0, B62_TEXT(B62_TOO_SMALL_TEXT));
    if (status == BASE62_EMPTY_INPUT) return append(message, 0, B62_TEXT(B62_EMPTY_TEXT));
    if (status == BASE62_OVERFLOW) return append(message, 0, B62_TEXT(B62_OVERFLOW_TEXT));
    if (status == BASE62_NO_MATCH) return append(message, 0, B62_TEXT(B62_NO_MATCH_TEXT));
    if (status == BASE62_NOT_CANONICAL) return append(message, 0, B62_TEXT(B62_LEADING_ZERO_TEXT));
    if (status == BASE62_WRONG_LENGTH) return append(message, 0, B62_TEXT(B62_WRONG_LENGTH_TEXT));
    if (status == BASE62_INVALID_UUID) return append(message, 0, B62_TEXT(B62_INVALID_UUID_TEXT));
    if (status == BASE62_OUT_OF_RANGE) return append(message, 0, B62_TEXT(B62_OUT_OF_RANGE_TEXT));
    if (status == BASE62_INVALID_BYTE) {
        const size_t length = append(message, 0, B62_TEXT(B62_INVALID_TEXT));
        return append_byte_at_index(message, length, bad.byte, bad.index);
    }
    if (status == BASE62_REPEATED_CHARACTER) {
        const size_t length = append(message, 0, B62_TEXT(B62_REPEATED_TEXT));
        return append_byte_at_index(message, length, bad.byte, bad.index);
    }
    return 0;
}

size_t base62_error_message(base62_status status, base62_bad_byte bad, char *buffer, size_t size) {
    uint8_t message[BASE62_MAX_ERROR_MESSAGE] = {0};
    const size_t length = format_message(status, bad, message);
    if (size < length) return 0;
    copy_bytes((uint8_t *)buffer, message, length);
    return length;
}

uint32_t base62_version_number(void) { return BASE62_VERSION_NUMBER; }

#if defined __GNUC__ && !defined __clang__ && __GNUC__ > 10 && __STDC_HOSTED__
#pragma GCC pop_options
#endif
