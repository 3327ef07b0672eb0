/* SPDX-License-Identifier: MIT */
/* Copyright (c) 2026 the maintainers of base62 for Rattle */

/* Hand-written. The functions of SQLite's extension: each reads its arguments, calls base62.h, and sets a result or an
 * error. */
#include "common.h"

#include <sqlite3ext.h>
SQLITE_EXTENSION_INIT1

/* The flags of the function, which are its user data. */
static int flags_of(sqlite3_context *context) { return (int)(intptr_t)sqlite3_user_data(context); }

/* Errors. Each function sets the error of the context, and returns 0. */

static int set_error(sqlite3_context *context, const call_error *error) {
    char message[sizeof "base62: " + sizeof error->message];
    sqlite3_snprintf(sizeof message, message, "base62: %s", error->message);
    sqlite3_result_error(context, message, -1);
    return 0;
}

static int set_out_of_memory(sqlite3_context *context) {
    sqlite3_result_error_nomem(context);
    return 0;
}

/* Arguments. Each function that reads one returns 1, or sets the error of the context and returns 0. */

/* Reads a blob, or a value of another type as text. */
static int read_bytes(sqlite3_context *context, sqlite3_value *value, int type, const char **bytes, size_t *length) {
    *bytes = type == SQLITE_BLOB ? sqlite3_value_blob(value) : (const char *)sqlite3_value_text(value);
    *length = (size_t)sqlite3_value_bytes(value);
    return *bytes != NULL || (type == SQLITE_BLOB && *length == 0) || set_out_of_memory(context);
}

/* The message, such as "the width is not from 1 to 1000", and the value. A conversion of the value before would make its
 * type unspecified. Returns 0. */
static int set_wrong_value(sqlite3_context *context, const char *message, sqlite3_value *value) {
    int type = sqlite3_value_type(value);
    const char *bytes;
    size_t length;
    call_error error;
    if (!read_bytes(context, value, type, &bytes, &length)) return 0;
    fail_with(&error, INVALID_PARAMETER, "%s", message);
    show(&error, type == SQLITE_TEXT ? "'" : type == SQLITE_BLOB ? "x'" : "", bytes, length);
    return set_error(context, &error);
}

static int any_null(int argc, sqlite3_value **argv) {
    for (int i = 0; i < argc; i++)
        if (sqlite3_value_type(argv[i]) == SQLITE_NULL) return 1;
    return 0;
}

/* Reads a UUID: a blob of 16 bytes, or a string. Returns 0 if it is none. */
static int read_uuid(int type, const char *bytes, size_t length, unsigned char uuid[BASE62_UUID_LENGTH]) {
    if (type == SQLITE_TEXT) return base62_uuid_from_string(bytes, length, uuid) == BASE62_OK;
    if (type != SQLITE_BLOB || length != BASE62_UUID_LENGTH) return 0;
    memcpy(uuid, bytes, length);
    return 1;
}

/* The number or the UUID that a function encodes. */
static int read_number(sqlite3_context *context, sqlite3_value *value, base62_number *number) {
    int type = sqlite3_value_type(value), flags = flags_of(context), is_uuid;
    unsigned char uuid[BASE62_UUID_LENGTH];
    const char *bytes = NULL;
    size_t length = 0;
    call_error error;
    if (type == SQLITE_INTEGER && !(flags & OF_UUID))
        return number_of_bigint(sqlite3_value_int64(value), number, &error) || set_error(context, &error);
    if ((type == SQLITE_TEXT || type == SQLITE_BLOB) && !read_bytes(context, value, type, &bytes, &length)) return 0;
    is_uuid = read_uuid(type, bytes, length, uuid);
    if (flags & OF_UUID) {
        if (!is_uuid) return set_wrong_value(context, "the UUID is not 32 hexadecimal digits or 16 bytes", value);
        *number = base62_from_uuid(uuid);
        return 1;
    }
    fail_with(&error, INVALID_PARAMETER, "the number is not an integer");
    if (is_uuid) name_uuid_encoder(&error, flags);
    /* This cast is exact. From 2^63 it makes no integer, unlike a cast to INTEGER, which makes 2^63 - 1. */
    if (type == SQLITE_TEXT && length > 0 && strspn(bytes, "0123456789") == length)
        strcat(error.message, "; to convert digits use CAST(.. AS NUMERIC)");
    return set_wrong_value(context, error.message, value);
}

/* Converts no other type. This catches columns declared STRING, which have NUMERIC affinity: they store the text 1E5 as
 * 100000. */
static int read_text(sqlite3_context *context, const char *message, sqlite3_value *value, const char **text,
                     size_t *length) {
    if (sqlite3_value_type(value) != SQLITE_TEXT) return set_wrong_value(context, message, value);
    return read_bytes(context, value, SQLITE_TEXT, text, length);
}

/* Points *alphabet to the alphabet of an argument, or to NULL if there is no such argument. If the argument is
 * constant, SQLite caches the alphabet for the next call. If not, SQLite may free it at once, so this call uses *copy. */
static int read_alphabet(sqlite3_context *context, int index, int argc, sqlite3_value **argv, base62_alphabet *copy,
                         const base62_alphabet **alphabet) {
    const char *characters;
    size_t length;
    base62_alphabet *cached;
    call_error error;
    *alphabet = NULL;
    if (index >= argc) return 1;
    *alphabet = sqlite3_get_auxdata(context, index);
    if (*alphabet != NULL) return 1;
    if (!read_text(context, "the alphabet is not text", argv[index], &characters, &length)) return 0;
    if (!create_alphabet(characters, length, copy, &error)) return set_error(context, &error);
    cached = sqlite3_malloc(sizeof *cached);
    if (cached == NULL) return set_out_of_memory(context);
    *cached = *copy;
    sqlite3_set_auxdata(context, index, cached, sqlite3_free);
    *alphabet = copy;
    return 1;
}

/* The width of the second argument, or that of a key if there is no such argument. */
static int read_width(sqlite3_context *context, int argc, sqlite3_value **argv, size_t *width) {
    int64_t value = BASE62_KEY_LENGTH;
    call_error error;
    if (argc > 1) {
        if (sqlite3_value_type(argv[1]) != SQLITE_INTEGER)
            return set_wrong_value(context, "the width is not an integer", argv[1]);
        value = sqlite3_value_int64(argv[1]);
    }
    *width = (size_t)value;
    return check_width(value, &error) || set_error(context, &error);
}

/* Functions. Each reads a number or UUID, a width, an alphabet and a string in this order, so the first error of these
 * is raised. */

static void result_fixed(sqlite3_context *context, const base62_alphabet *alphabet, base62_number number,
                         size_t width) {
    char text[MAX_WIDTH];
    call_error error;
    if (encode_width(alphabet, number, text, width, &error))
        sqlite3_result_text(context, text, (int)width, SQLITE_TRANSIENT);
    else
        set_error(context, &error);
}

static void encode(sqlite3_context *context, int argc, sqlite3_value **argv) {
    int fixed = flags_of(context) & FIXED;
    base62_number number;
    size_t width;
    base62_alphabet copy;
    const base62_alphabet *alphabet;
    char text[BASE62_MAX_DIGITS];
    if (any_null(argc, argv) || !read_number(context, argv[0], &number) ||
        (fixed && !read_width(context, argc, argv, &width)) ||
        !read_alphabet(context, fixed ? 2 : 1, argc, argv, &copy, &alphabet))
        return;
    if (fixed)
        result_fixed(context, alphabet, number, width);
    else
        sqlite3_result_text(context, text, (int)encode_shortest(alphabet, number, text), SQLITE_TRANSIENT);
}

/* Reads what the flags say: a string alone, or a string and a width. Returns 0 if the result is null or an error. */
static int read_encoded(sqlite3_context *context, int argc, sqlite3_value **argv, base62_alphabet *copy,
                        encoded *given) {
    int flags = given->flags = flags_of(context);
    return !any_null(argc, argv) && (!(flags & FIXED) || read_width(context, argc, argv, &given->width)) &&
           read_alphabet(context, flags & FIXED ? 2 : 1, argc, argv, copy, &given->alphabet) &&
           !(flags & TRY && sqlite3_value_type(argv[0]) != SQLITE_TEXT) &&
           read_text(context, "the string is not text", argv[0], &given->text, &given->length);
}

static void decode(sqlite3_context *context, int argc, sqlite3_value **argv) {
    base62_alphabet copy;
    encoded given;
    int64_t value;
    call_error error;
    if (!read_encoded(context, argc, argv, &copy, &given)) return;
    if (decode_to_bigint(&given, "base62_decode_uuid", &value, &error))
        sqlite3_result_int64(context, value);
    else if (!(given.flags & TRY))
        set_error(context, &error);
}

/* Decodes a UUID, as a string with OF_UUID, or as a blob. */
static void decode_bytes(sqlite3_context *context, int argc, sqlite3_value **argv) {
    base62_alphabet copy;
    encoded given;
    base62_number number;
    unsigned char uuid[BASE62_UUID_LENGTH];
    char string[BASE62_UUID_STRING_LENGTH];
    call_error error;
    if (!read_encoded(context, argc, argv, &copy, &given)) return;
    if (!decode_text(&given, &number, &error)) {
        if (!(given.flags & TRY)) set_error(context, &error);
        return;
    }
    base62_to_uuid(number, uuid);
    if (given.flags & OF_UUID) {
        base62_uuid_to_string(uuid, string);
        sqlite3_result_text(context, string, sizeof string, SQLITE_TRANSIENT);
    } else
        sqlite3_result_blob(context, uuid, sizeof uuid, SQLITE_TRANSIENT);
}

/* Whether the value is a text that the decoding functions accept. */
static void is_valid(sqlite3_context *context, int argc, sqlite3_value **argv) {
    base62_alphabet copy;
    encoded given;
    base62_number number;
    call_error error;
    given.flags = flags_of(context);
    if (any_null(argc, argv) || !read_alphabet(context, 1, argc, argv, &copy, &given.alphabet)) return;
    if (sqlite3_value_type(argv[0]) != SQLITE_TEXT)
        sqlite3_result_int(context, 0);
    else if (read_text(context, "", argv[0], &given.text, &given.length))
        sqlite3_result_int(context, decode_text(&given, &number, &error));
}

/* Finds the numbers whose strings of the width begin with the prefix. Returns 0 if the result is null or an error. */
static int read_range(sqlite3_context *context, int argc, sqlite3_value **argv, size_t *width, base62_range *range) {
    const char *prefix;
    size_t length;
    base62_alphabet copy;
    const base62_alphabet *alphabet;
    bool empty;
    call_error error;
    if (any_null(argc, argv) || !read_width(context, argc, argv, width) ||
        !read_alphabet(context, 2, argc, argv, &copy, &alphabet) ||
        !read_text(context, "the prefix is not text", argv[0], &prefix, &length))
        return 0;
    if (!range_of_prefix(alphabet, prefix, length, *width, range, &empty, &error)) return set_error(context, &error);
    return !empty;
}

static void string_bound(sqlite3_context *context, int argc, sqlite3_value **argv) {
    size_t width;
    base62_range range;
    if (read_range(context, argc, argv, &width, &range))
        result_fixed(context, NULL, flags_of(context) & LAST ? range.greatest : range.least, width);
}

static void number_bound(sqlite3_context *context, int argc, sqlite3_value **argv) {
    size_t width;
    base62_range range;
    int64_t value;
    if (read_range(context, argc, argv, &width, &range) && bigint_bound(range, flags_of(context) & LAST, &value))
        sqlite3_result_int64(context, value);
}

static void version(sqlite3_context *context, int argc, sqlite3_value **argv) {
    (void)argc;
    (void)argv;
    sqlite3_result_text(context, BASE62_VERSION, -1, SQLITE_STATIC);
}

/* The extension */

/* The decoder of a form, and the one that tries. */
#define DECODERS(form, min, max, flags, call)                                                                          \
    {"base62_decode" form, min, max, flags, call}, { "base62_try_decode" form, min, max, (flags) | TRY, call }

static int create_functions(sqlite3 *db) {
    static const struct {
        const char *name;
        int min_arguments, max_arguments, flags;
        void (*call)(sqlite3_context *, int, sqlite3_value **);
    } functions[] = {
        {"base62_encode", 1, 2, 0, encode},
        {"base62_encode_uuid", 1, 2, OF_UUID, encode},
        {"base62_encode_key", 1, 1, KEY, encode},
        {"base62_encode_uuid_key", 1, 1, OF_UUID | KEY, encode},
        {"base62_encode_fixed", 2, 3, FIXED, encode},
        {"base62_encode_uuid_fixed", 2, 3, OF_UUID | FIXED, encode},
        DECODERS("", 1, 2, 0, decode),
        DECODERS("_uuid", 1, 2, OF_UUID, decode_bytes),
        DECODERS("_blob", 1, 2, 0, decode_bytes),
        DECODERS("_canonical", 1, 2, CANONICAL, decode),
        DECODERS("_uuid_canonical", 1, 2, OF_UUID | CANONICAL, decode_bytes),
        DECODERS("_blob_canonical", 1, 2, CANONICAL, decode_bytes),
        DECODERS("_fixed", 2, 3, FIXED, decode),
        DECODERS("_uuid_fixed", 2, 3, OF_UUID | FIXED, decode_bytes),
        DECODERS("_blob_fixed", 2, 3, FIXED, decode_bytes),
        DECODERS("_key", 1, 1, KEY, decode),
        DECODERS("_uuid_key", 1, 1, OF_UUID | KEY, decode_bytes),
        DECODERS("_blob_key", 1, 1, KEY, decode_bytes),
        {"base62_is_valid", 1, 2, TRY, is_valid},
        {"base62_is_canonical", 1, 2, CANONICAL | TRY, is_valid},
        {"base62_first_string", 1, 2, 0, string_bound},
        {"base62_last_string", 1, 2, LAST, string_bound},
        {"base62_first_number", 2, 3, 0, number_bound},
        {"base62_last_number", 2, 3, LAST, number_bound},
        {"base62_version", 0, 0, 0, version},
    };
    int status = SQLITE_OK;
    for (size_t i = 0; i < sizeof functions / sizeof *functions; i++) {
        /* The version changes with the library, so no index may contain it. */
        int deterministic = functions[i].call == version ? 0 : SQLITE_DETERMINISTIC;
        for (int n = functions[i].min_arguments; status == SQLITE_OK && n <= functions[i].max_arguments; n++)
            status = sqlite3_create_function(db, functions[i].name, n, SQLITE_UTF8 | SQLITE_INNOCUOUS | deterministic,
                                             (void *)(intptr_t)functions[i].flags, functions[i].call, NULL, NULL);
    }
    return status;
}

/* With SQLITE_CORE a program links this file with SQLite, and passes the entry point to sqlite3_auto_extension. */
#ifdef SQLITE_CORE
#define EXPORT
#elif defined _WIN32
#define EXPORT __declspec(dllexport)
#else
#define EXPORT __attribute__((visibility("default")))
#endif

EXPORT int sqlite3_base62_init(sqlite3 *db, char **error, const sqlite3_api_routines *api);

int sqlite3_base62_init(sqlite3 *db, char **error, const sqlite3_api_routines *api) {
    (void)error;
    SQLITE_EXTENSION_INIT2(api);
    return create_functions(db);
}

/* The entry point that SQLite tries first in a module. The module exports only these two names. */
#ifndef SQLITE_CORE
EXPORT int sqlite3_extension_init(sqlite3 *db, char **error, const sqlite3_api_routines *api);

int sqlite3_extension_init(sqlite3 *db, char **error, const sqlite3_api_routines *api) {
    return sqlite3_base62_init(db, error, api);
}
#endif
