/* SPDX-License-Identifier: MIT */
/* Copyright (c) 2026 the maintainers of base62 for Rattle */

/* Hand-written. What the modules of all databases share: functions over the standard or a custom alphabet, and their
 * errors. Every function is static, so that a program that links a module gets no further names from it.
 *
 * A function that returns bool writes its result and returns true, or stores why it fails in *error and returns false.
 * A null alphabet is the standard one. */
#ifndef BASE62_COMMON_H
#define BASE62_COMMON_H

#include "base62.h"
#include <stdarg.h>
#include <stdbool.h>
#include <stdio.h>
#include <string.h>

/* No number needs more than 22 characters. A greater width fills a wider column; far greater ones only take time. */
#define MAX_WIDTH 1000

/* A message shows at most so many bytes of a rejected value. Each number below 2^128 and each UUID fits. */
#define MAX_SHOWN 40

/* What a message says before the value has at most so many bytes. */
#define MAX_SENTENCE 160

/* PostgreSQL has an error code for each kind. */
typedef enum { INVALID_TEXT, OUT_OF_RANGE, INVALID_PARAMETER } error_kind;

/* The message is in English, of printable ASCII. Of the bytes of a value each may take four characters. */
typedef struct {
    error_kind kind;
    char message[MAX_SENTENCE + 4 * MAX_SHOWN + sizeof ": x'...'"];
} call_error;

/* COLD keeps a function out of loops over rows. */
#ifdef __GNUC__
#define COLD __attribute__((__cold__, __noinline__))
#define PRINTF __attribute__((__format__(__printf__, 3, 4)))
#else
#define COLD
#define PRINTF
#endif

/* Errors. Each of these functions returns false. */

PRINTF static inline bool fail_with(call_error *error, error_kind kind, const char *format, ...) {
    va_list values;
    error->kind = kind;
    va_start(values, format);
    vsnprintf(error->message, sizeof error->message, format, values);
    va_end(values);
    return false;
}

static inline bool fail_with_status(call_error *error, base62_status status, base62_bad_byte bad) {
    char message[BASE62_MAX_ERROR_MESSAGE];
    size_t length = base62_error_message(status, bad, message, sizeof message);
    error_kind kind = status == BASE62_REPEATED_CHARACTER ? INVALID_PARAMETER : INVALID_TEXT;
    if (status == BASE62_OVERFLOW)
        return fail_with(error, OUT_OF_RANGE, "Encoded input represents 2^128 or more, or has more than 22 characters");
    return fail_with(error, kind, "%.*s", (int)length, message);
}

/* Appends a value to the message, shortened: a string if opening is "'", a blob if it is "x'", and otherwise digits. */
static inline bool show(call_error *error, const char *opening, const char *value, size_t length) {
    char *next = error->message + strlen(error->message);
    next += sprintf(next, ": %s", opening);
    for (size_t i = 0; i < length && i < MAX_SHOWN; i++) {
        unsigned char byte = (unsigned char)value[i];
        if (*opening == 'x')
            next += sprintf(next, "%02x", byte);
        else
            next += sprintf(next, byte == '\\' ? "\\\\" : 32 <= byte && byte < 127 ? "%c" : "\\x%02x", byte);
    }
    sprintf(next, "%s%s", length > MAX_SHOWN ? "..." : "", *opening == '\0' ? "" : "'");
    return false;
}

/* Arguments */

/* Whether the characters of an alphabet are this name of one. */
#define IS(name) (length == strlen(name) && memcmp(characters, name, length) == 0)

/* Other characters than ASCII would make invalid strings in a database, and a null byte would end them. */
static inline bool create_alphabet(const char *characters, size_t length, base62_alphabet *alphabet,
                                   call_error *error) {
    base62_bad_byte bad = {0, 0};
    base62_status status = BASE62_OK;
    bool ascii = true;
    for (size_t i = 0; i < length; i++) ascii = ascii && (unsigned char)characters[i] < 128;
    if (!ascii)
        fail_with(error, INVALID_PARAMETER, "the alphabet has a non-ASCII character");
    else if (memchr(characters, '\0', length) != NULL)
        fail_with(error, INVALID_PARAMETER, "the alphabet has a null character");
    else if (length != BASE62_ALPHABET_LENGTH)
        fail_with(error, INVALID_PARAMETER, "the alphabet has %u character%s, not 62%s", (unsigned)length,
                  length == 1 ? "" : "s",
                  IS("standard")      ? "; write '" BASE62_STANDARD_ALPHABET "'"
                  : IS("alternative") ? "; write '" BASE62_ALTERNATIVE_ALPHABET "'"
                                      : "");
    else if ((status = base62_alphabet_init(alphabet, characters, &bad)) == BASE62_OK)
        return true;
    else
        fail_with_status(error, status, bad);
    return show(error, "'", characters, length);
}

static inline bool number_of_bigint(int64_t value, base62_number *number, call_error *error) {
    *number = base62_from_u64((uint64_t)value);
    return value >= 0 || fail_with(error, OUT_OF_RANGE, "the number is negative: %lld", (long long)value);
}

/* Returns whether the number is below 2^63, and if so writes it. */
static inline bool bigint_of_number(base62_number number, int64_t *value) {
    uint64_t low;
    if (base62_to_u64(number, &low) != BASE62_OK || low > INT64_MAX) return false;
    *value = (int64_t)low;
    return true;
}

static inline bool check_width(int64_t width, call_error *error) {
    bool valid = 1 <= width && width <= MAX_WIDTH;
    return valid || fail_with(error, INVALID_PARAMETER, "the width is not from 1 to 1000: %lld", (long long)width);
}

/* What distinguishes functions that share code. Those with CANONICAL or FIXED decode only canonical strings or those of
 * a width, and those with FIXED encode at a width, with KEY at that of a key. Those with TRY store no error of a string. */
enum { CANONICAL = 1, FIXED = 2, KEY = 4 | FIXED, TRY = 8, OF_UUID = 16, LAST = 32 };

/* A string to decode. Only FIXED has a width. */
typedef struct {
    int flags;
    const base62_alphabet *alphabet;
    const char *text;
    size_t length, width;
} encoded;

/* Encoding, decoding and ranges */

/* Calls a function of the library, or with a custom alphabet the one whose name ends in _with. */
#define CALL_WITH(alphabet, function, ...)                                                                             \
    ((alphabet) == NULL ? function(__VA_ARGS__) : function##_with((alphabet), __VA_ARGS__))

/* The buffer has BASE62_MAX_DIGITS bytes. Returns the length. */
static inline size_t encode_shortest(const base62_alphabet *alphabet, base62_number number, char *buffer) {
    return CALL_WITH(alphabet, base62_encode, number, buffer, BASE62_MAX_DIGITS);
}

/* The buffer has width bytes. */
static inline bool encode_width(const base62_alphabet *alphabet, base62_number number, char *buffer, size_t width,
                                call_error *error) {
    size_t length = CALL_WITH(alphabet, base62_encode_fixed, number, buffer, width);
    return length != 0 || fail_with(error, OUT_OF_RANGE, "the number needs %u characters, and the width is %u",
                                    (unsigned)base62_digit_count(number), (unsigned)width);
}

/* The end of the name of a function with these flags. */
static inline const char *form_of(int flags) {
    return (flags & KEY) == KEY ? "_key" : flags & FIXED ? "_fixed" : flags & CANONICAL ? "_canonical" : "";
}

/* Names the encoder that takes what was given to a function with these flags: a UUID. */
COLD static void name_uuid_encoder(call_error *error, int flags) {
    sprintf(error->message + strlen(error->message), "; to encode a UUID use base62_encode_uuid%s",
            form_of(flags & ~CANONICAL));
}

/* Stores why a string is rejected, unless the function has TRY. A number of 2^63 or more has a function that takes it:
 * wider, with the form behind its name. Otherwise wider is null. */
COLD static void reject(const encoded *given, base62_status status, base62_bad_byte bad, const char *wider,
                        call_error *error) {
    unsigned char uuid[BASE62_UUID_LENGTH];
    if (given->flags & TRY) return;
    if (wider != NULL)
        fail_with(error, OUT_OF_RANGE, "the number is 2^63 or more; use %s%s", wider, form_of(given->flags));
    else if (status == BASE62_WRONG_LENGTH)
        fail_with(error, INVALID_TEXT, "Encoded input has %lu byte%s, not %u", (unsigned long)given->length,
                  given->length == 1 ? "" : "s", (unsigned)given->width);
    else
        fail_with_status(error, status, bad);
    if (base62_uuid_from_string(given->text, given->length, uuid) == BASE62_OK) name_uuid_encoder(error, given->flags);
    show(error, "'", given->text, given->length);
}

static inline bool decode_text(const encoded *given, base62_number *number, call_error *error) {
    base62_bad_byte bad = {0, 0};
    const char *text = given->text;
    base62_status status;
    if (given->flags & FIXED)
        status = CALL_WITH(given->alphabet, base62_decode_fixed, text, given->length, given->width, number, &bad);
    else if (given->flags & CANONICAL)
        status = CALL_WITH(given->alphabet, base62_decode_canonical, text, given->length, number, &bad);
    else
        status = CALL_WITH(given->alphabet, base62_decode, text, given->length, number, &bad);
    if (status != BASE62_OK) reject(given, status, bad, NULL, error);
    return status == BASE62_OK;
}

/* Decodes a number below 2^63. */
static inline bool decode_to_bigint(const encoded *given, const char *wider, int64_t *value, call_error *error) {
    base62_number number;
    bool decoded = decode_text(given, &number, error), fits = decoded && bigint_of_number(number, value);
    if (decoded && !fits) reject(given, BASE62_OVERFLOW, (base62_bad_byte){0, 0}, wider, error);
    return fits;
}

/* Finds the numbers whose strings of the width begin with the prefix. If there are none, only sets *empty. */
static inline bool range_of_prefix(const base62_alphabet *alphabet, const char *prefix, size_t length, size_t width,
                                   base62_range *range, bool *empty, call_error *error) {
    base62_bad_byte bad = {0, 0};
    base62_status status = CALL_WITH(alphabet, base62_prefix_range, prefix, length, width, range, &bad);
    *empty = status == BASE62_NO_MATCH;
    return *empty || status == BASE62_OK || fail_with_status(error, status, bad) || show(error, "'", prefix, length);
}

/* The first or the last number of the range that is below 2^63. Returns whether there is one. */
static inline bool bigint_bound(base62_range range, bool last, int64_t *value) {
    if (!bigint_of_number(range.least, value)) return false;
    if (last && !bigint_of_number(range.greatest, value)) *value = INT64_MAX;
    return true;
}

#endif
