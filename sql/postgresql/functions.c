/* SPDX-License-Identifier: MIT */
/* Copyright (c) 2026 the maintainers of base62 for Rattle */

/* Hand-written. The functions of PostgreSQL's extension: each reads its arguments, calls base62.h, and returns a datum
 * or raises an error. */
#include <postgres.h>

#include <fmgr.h>
#include <utils/builtins.h>
#include <utils/numeric.h>
#include <utils/uuid.h>
#if PG_VERSION_NUM >= 160000
#include <varatt.h>
#endif

#include "common.h"

PG_MODULE_MAGIC;

StaticAssertDecl(UUID_LEN == BASE62_UUID_LENGTH, "a UUID has 16 bytes");

static void raise_error(const call_error *error) {
    int code = ERRCODE_INVALID_TEXT_REPRESENTATION;
    if (error->kind == OUT_OF_RANGE) code = ERRCODE_NUMERIC_VALUE_OUT_OF_RANGE;
    if (error->kind == INVALID_PARAMETER) code = ERRCODE_INVALID_PARAMETER_VALUE;
    ereport(ERROR, (errcode(code), errmsg("%s", error->message)));
}

/* numeric is converted through decimal digits: PostgreSQL exports no conversion for integers of more than 64 bits. */

/* 2^128 - 1 has 39 digits, which are written in groups of nine. */
#define DIGITS_PER_GROUP 9
#define MAX_DECIMAL_DIGITS 45

/* Multiplies the number by 10, and adds the digit. If that is 2^128 or more, leaves the number and returns false. */
static bool append_digit(base62_number *number, unsigned digit) {
    uint64_t low = (number->low & UINT32_MAX) * 10 + digit;
    uint64_t middle = (number->low >> 32) * 10 + (low >> 32);
    uint64_t carry = middle >> 32;
    if (number->high > (UINT64_MAX - carry) / 10) return false;
    number->high = number->high * 10 + carry;
    number->low = middle << 32 | (low & UINT32_MAX);
    return true;
}

/* Divides the number by 10^9, and returns the remainder. */
static uint64_t divide_by_10_9(base62_number *number) {
    const uint64_t divisor = 1000000000;
    uint64_t middle = number->high % divisor << 32 | number->low >> 32;
    uint64_t low = middle % divisor << 32 | (number->low & UINT32_MAX);
    number->high /= divisor;
    number->low = middle / divisor << 32 | low / divisor;
    return low % divisor;
}

static Datum numeric_of_number(base62_number number) {
    char digits[MAX_DECIMAL_DIGITS + 1], *first = digits + MAX_DECIMAL_DIGITS;
    *first = '\0';
    do {
        uint64_t group = divide_by_10_9(&number);
        for (int i = 0; i < DIGITS_PER_GROUP; i++, group /= 10) *--first = (char)('0' + group % 10);
    } while (number.high != 0 || number.low != 0);
    return DirectFunctionCall3(numeric_in, CStringGetDatum(first), ObjectIdGetDatum(InvalidOid), Int32GetDatum(-1));
}

/* Arguments */

static base62_number get_bigint(FunctionCallInfo fcinfo, int argument) {
    base62_number number;
    call_error error;
    if (!number_of_bigint(PG_GETARG_INT64(argument), &number, &error)) raise_error(&error);
    return number;
}

static base62_number get_uuid(FunctionCallInfo fcinfo, int argument) {
    return base62_from_uuid(PG_GETARG_UUID_P(argument)->data);
}

/* numeric_normalize leaves out a fraction of zeros, so an integer has nothing but digits. */
static base62_number get_numeric(FunctionCallInfo fcinfo, int argument) {
    char *digits = numeric_normalize(PG_GETARG_NUMERIC(argument)), *next = digits;
    base62_number number = {0, 0};
    call_error error;
    while ('0' <= *next && *next <= '9' && append_digit(&number, (unsigned)(*next - '0'))) next++;
    if (*next != '\0') {
        fail_with(&error, OUT_OF_RANGE, "the number is not an integer from 0 to 2^128 - 1");
        show(&error, "", digits, strlen(digits));
        raise_error(&error);
    }
    return number;
}

/* The bytes of a text. PostgreSQL 17's macro mixes int and size_t. */
#pragma GCC diagnostic push
#pragma GCC diagnostic ignored "-Wsign-conversion"
static size_t text_length(const text *value) { return VARSIZE_ANY_EXHDR(value); }
#pragma GCC diagnostic pop

typedef struct {
    char characters[BASE62_ALPHABET_LENGTH];
    base62_alphabet alphabet;
} cached_alphabet;

/* The alphabet of an argument, or NULL if there is no such argument. It is cached for the next call of the same
 * expression. Each call compares the characters: PostgreSQL reports a variable of PL/pgSQL as a constant, although its
 * value can change. */
static const base62_alphabet *get_alphabet(FunctionCallInfo fcinfo, int argument) {
    FmgrInfo *function = fcinfo->flinfo;
    cached_alphabet *cached;
    const text *given;
    const char *characters;
    size_t length;
    if (argument >= PG_NARGS()) return NULL;
    cached = function->fn_extra;
    given = PG_GETARG_TEXT_PP(argument);
    characters = VARDATA_ANY(given);
    length = text_length(given);
    if (cached == NULL || length != sizeof cached->characters || memcmp(cached->characters, characters, length) != 0) {
        base62_alphabet alphabet;
        call_error error;
        if (!create_alphabet(characters, length, &alphabet, &error)) raise_error(&error);
        if (cached == NULL) cached = function->fn_extra = MemoryContextAlloc(function->fn_mcxt, sizeof *cached);
        memcpy(cached->characters, characters, sizeof cached->characters);
        cached->alphabet = alphabet;
        elog(DEBUG1, "base62 created an alphabet");
    }
    return &cached->alphabet;
}

/* The width of an argument, or that of a key if there is no such argument. */
static size_t get_width(FunctionCallInfo fcinfo, int argument) {
    int32 width = argument < PG_NARGS() ? PG_GETARG_INT32(argument) : BASE62_KEY_LENGTH;
    call_error error;
    if (!check_width(width, &error)) raise_error(&error);
    return (size_t)width;
}

/* Encoding. Callers read the number first, so that its error comes before that of another argument. */

static Datum encode(FunctionCallInfo fcinfo, base62_number number) {
    char buffer[BASE62_MAX_DIGITS];
    size_t length = encode_shortest(get_alphabet(fcinfo, 1), number, buffer);
    PG_RETURN_TEXT_P(cstring_to_text_with_len(buffer, (int)length));
}

static Datum encode_with_width(base62_number number, size_t width, const base62_alphabet *alphabet) {
    text *result = palloc(VARHDRSZ + width);
    call_error error;
    SET_VARSIZE(result, VARHDRSZ + width);
    if (!encode_width(alphabet, number, VARDATA(result), width, &error)) raise_error(&error);
    PG_RETURN_TEXT_P(result);
}

static Datum encode_fixed(FunctionCallInfo fcinfo, base62_number number) {
    size_t width = get_width(fcinfo, 1);
    return encode_with_width(number, width, get_alphabet(fcinfo, 2));
}

/* Decoding. The flags of a function say what its arguments are. */

static encoded get_encoded(FunctionCallInfo fcinfo, int flags) {
    const text *value = PG_GETARG_TEXT_PP(0);
    bool fixed = flags & FIXED;
    size_t width = fixed ? get_width(fcinfo, 1) : 0;
    encoded given = {flags, get_alphabet(fcinfo, fixed ? 2 : 1), VARDATA_ANY(value), text_length(value), width};
    return given;
}

static Datum raise_or_null(FunctionCallInfo fcinfo, int flags, const call_error *error) {
    if (!(flags & TRY)) raise_error(error);
    PG_RETURN_NULL();
}

static Datum decode_bigint(FunctionCallInfo fcinfo, int flags) {
    encoded given = get_encoded(fcinfo, flags);
    int64_t value;
    call_error error;
    if (decode_to_bigint(&given, "base62_decode_numeric", &value, &error)) PG_RETURN_INT64(value);
    return raise_or_null(fcinfo, flags, &error);
}

static Datum decode_uuid(FunctionCallInfo fcinfo, int flags) {
    encoded given = get_encoded(fcinfo, flags);
    base62_number number;
    pg_uuid_t *result;
    call_error error;
    if (!decode_text(&given, &number, &error)) return raise_or_null(fcinfo, flags, &error);
    result = palloc(sizeof *result);
    base62_to_uuid(number, result->data);
    PG_RETURN_UUID_P(result);
}

static Datum decode_numeric(FunctionCallInfo fcinfo, int flags) {
    encoded given = get_encoded(fcinfo, flags);
    base62_number number;
    call_error error;
    return decode_text(&given, &number, &error) ? numeric_of_number(number) : raise_or_null(fcinfo, flags, &error);
}

static Datum is_valid(FunctionCallInfo fcinfo, int flags) {
    encoded given = get_encoded(fcinfo, flags);
    base62_number number;
    call_error error;
    PG_RETURN_BOOL(decode_text(&given, &number, &error));
}

/* Ranges */

/* Finds the numbers whose strings of the width begin with the prefix. Returns whether there are any. */
static bool get_range(FunctionCallInfo fcinfo, base62_range *range) {
    const text *prefix = PG_GETARG_TEXT_PP(0);
    size_t width = get_width(fcinfo, 1);
    const base62_alphabet *alphabet = get_alphabet(fcinfo, 2);
    bool empty;
    call_error error;
    if (!range_of_prefix(alphabet, VARDATA_ANY(prefix), text_length(prefix), width, range, &empty, &error))
        raise_error(&error);
    return !empty;
}

static Datum string_bound(FunctionCallInfo fcinfo, int flags) {
    base62_range range;
    if (!get_range(fcinfo, &range)) PG_RETURN_NULL();
    return encode_with_width(flags & LAST ? range.greatest : range.least, get_width(fcinfo, 1), NULL);
}

static Datum number_bound(FunctionCallInfo fcinfo, int flags) {
    base62_range range;
    int64_t value;
    if (!get_range(fcinfo, &range) || !bigint_bound(range, flags & LAST, &value)) PG_RETURN_NULL();
    PG_RETURN_INT64(value);
}

static Datum numeric_bound(FunctionCallInfo fcinfo, int flags) {
    base62_range range;
    if (!get_range(fcinfo, &range)) PG_RETURN_NULL();
    return numeric_of_number(flags & LAST ? range.greatest : range.least);
}

/* The functions that the SQL script names, each with its result: pg_ and the name in SQL, since some functions of the
 * library, such as base62_encode, have that name. */

#define SQL_FUNCTION(name, result)                                                                                     \
    PG_FUNCTION_INFO_V1(name);                                                                                         \
    Datum name(PG_FUNCTION_ARGS) {                                                                                     \
        (void)fcinfo;                                                                                                  \
        return result;                                                                                                 \
    }

SQL_FUNCTION(pg_base62_encode, encode(fcinfo, get_bigint(fcinfo, 0)))
SQL_FUNCTION(pg_base62_encode_uuid, encode(fcinfo, get_uuid(fcinfo, 0)))
SQL_FUNCTION(pg_base62_encode_numeric, encode(fcinfo, get_numeric(fcinfo, 0)))
SQL_FUNCTION(pg_base62_encode_fixed, encode_fixed(fcinfo, get_bigint(fcinfo, 0)))
SQL_FUNCTION(pg_base62_encode_uuid_fixed, encode_fixed(fcinfo, get_uuid(fcinfo, 0)))
SQL_FUNCTION(pg_base62_encode_numeric_fixed, encode_fixed(fcinfo, get_numeric(fcinfo, 0)))
SQL_FUNCTION(pg_base62_encode_key, encode_fixed(fcinfo, get_bigint(fcinfo, 0)))
SQL_FUNCTION(pg_base62_encode_uuid_key, encode_fixed(fcinfo, get_uuid(fcinfo, 0)))
SQL_FUNCTION(pg_base62_encode_numeric_key, encode_fixed(fcinfo, get_numeric(fcinfo, 0)))

/* The decoder of a form, and the one that tries. */
#define DECODERS(form, call, flags)                                                                                    \
    SQL_FUNCTION(pg_base62_decode##form, call(fcinfo, flags))                                                          \
    SQL_FUNCTION(pg_base62_try_decode##form, call(fcinfo, (flags) | TRY))

DECODERS(, decode_bigint, 0)
DECODERS(_uuid, decode_uuid, 0)
DECODERS(_numeric, decode_numeric, 0)
DECODERS(_canonical, decode_bigint, CANONICAL)
DECODERS(_uuid_canonical, decode_uuid, CANONICAL)
DECODERS(_numeric_canonical, decode_numeric, CANONICAL)
DECODERS(_fixed, decode_bigint, FIXED)
DECODERS(_uuid_fixed, decode_uuid, FIXED)
DECODERS(_numeric_fixed, decode_numeric, FIXED)
DECODERS(_key, decode_bigint, KEY)
DECODERS(_uuid_key, decode_uuid, KEY)
DECODERS(_numeric_key, decode_numeric, KEY)

SQL_FUNCTION(pg_base62_is_valid, is_valid(fcinfo, TRY))
SQL_FUNCTION(pg_base62_is_canonical, is_valid(fcinfo, CANONICAL | TRY))

SQL_FUNCTION(pg_base62_first_string, string_bound(fcinfo, 0))
SQL_FUNCTION(pg_base62_last_string, string_bound(fcinfo, LAST))
SQL_FUNCTION(pg_base62_first_number, number_bound(fcinfo, 0))
SQL_FUNCTION(pg_base62_last_number, number_bound(fcinfo, LAST))
SQL_FUNCTION(pg_base62_first_numeric, numeric_bound(fcinfo, 0))
SQL_FUNCTION(pg_base62_last_numeric, numeric_bound(fcinfo, LAST))

SQL_FUNCTION(pg_base62_version, CStringGetTextDatum(BASE62_VERSION))
