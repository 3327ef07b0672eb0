/* SPDX-License-Identifier: MIT */
/* Copyright (c) 2026 the maintainers of base62 for Rattle */

/* Hand-written. The functions of DuckDB's extension: each loops over the rows of a chunk, calls base62.h for each, and
 * writes a result or sets the error of the query. */
#include "common.h"

#define DUCKDB_EXTENSION_NAME base62
#include <duckdb_extension.h>

DUCKDB_EXTENSION_EXTERN

/* A vector of arguments or of results. DuckDB has flattened it: each row has a value or is null. */
struct column {
    duckdb_type type;
    void *data;
    uint64_t *validity;
};

/* One call of a function, for up to some thousand rows. */
struct chunk {
    duckdb_function_info info;
    int flags; /* The extra information of the function. */
    idx_t row, rows, argument_count;
    bool has_nulls;
    struct column arguments[3], results;
    duckdb_vector output;
    char *block; /* Where the next strings of the output go. */
    size_t block_size;
    /* The alphabet of an earlier row, since most queries have the same one in all rows. */
    bool has_alphabet;
    char characters[BASE62_ALPHABET_LENGTH];
    base62_alphabet alphabet;
};

/* Rows */

static struct column column_of(duckdb_vector vector) {
    duckdb_logical_type type = duckdb_vector_get_column_type(vector);
    struct column column = {duckdb_get_type_id(type), duckdb_vector_get_data(vector),
                            duckdb_vector_get_validity(vector)};
    duckdb_destroy_logical_type(&type);
    return column;
}

static void begin(struct chunk *chunk, duckdb_function_info info, duckdb_data_chunk input, duckdb_vector output) {
    *chunk = (struct chunk){.info = info, .output = output, .results = column_of(output)};
    chunk->flags = (int)(intptr_t)duckdb_scalar_function_get_extra_info(info);
    chunk->rows = duckdb_data_chunk_get_size(input);
    chunk->argument_count = duckdb_data_chunk_get_column_count(input);
    for (idx_t i = 0; i < chunk->argument_count; i++) {
        chunk->arguments[i] = column_of(duckdb_data_chunk_get_vector(input, i));
        chunk->has_nulls = chunk->has_nulls || chunk->arguments[i].validity != NULL;
    }
}

static void set_null(struct chunk *chunk) {
    duckdb_vector_ensure_validity_writable(chunk->output);
    duckdb_validity_set_row_invalid(duckdb_vector_get_validity(chunk->output), chunk->row);
}

static bool is_null(const struct chunk *chunk) {
    for (idx_t i = 0; i < chunk->argument_count; i++) {
        uint64_t *validity = chunk->arguments[i].validity;
        if (validity != NULL && !duckdb_validity_row_is_valid(validity, chunk->row)) return true;
    }
    return false;
}

/* Ends the query. Returns false. */
COLD static bool set_error(const struct chunk *chunk, const call_error *error) {
    char message[sizeof "base62: " + sizeof error->message];
    snprintf(message, sizeof message, "base62: %s", error->message);
    duckdb_scalar_function_set_error(chunk->info, message);
    return false;
}

/* Arguments of a row */

/* DuckDB stores a UUID as a signed integer that sorts as the UUID does. */
#define UUID_SIGN (UINT64_C(1) << 63)

/* Returns false. */
COLD static bool set_negative(const struct chunk *chunk, duckdb_hugeint number) {
    duckdb_value value = duckdb_create_hugeint(number);
    char *digits = duckdb_get_varchar(value);
    call_error error;
    fail_with(&error, OUT_OF_RANGE, "the number is negative: %s", digits == NULL ? "" : digits);
    duckdb_free(digits);
    duckdb_destroy_value(&value);
    return set_error(chunk, &error);
}

static inline bool number_at(const struct chunk *chunk, base62_number *number) {
    const struct column *column = &chunk->arguments[0];
    const uint64_t *words = (const uint64_t *)column->data + chunk->row;
    call_error error;
    if (column->type == DUCKDB_TYPE_UBIGINT) {
        *number = base62_from_u64(*words);
        return true;
    }
    if (column->type == DUCKDB_TYPE_BIGINT)
        return number_of_bigint((int64_t)*words, number, &error) || set_error(chunk, &error);
    words += chunk->row;
    /* The upper half has the sign. */
    if (column->type == DUCKDB_TYPE_HUGEINT && (int64_t)words[1] < 0)
        return set_negative(chunk, (duckdb_hugeint){words[0], (int64_t)words[1]});
    *number = (base62_number){words[1], words[0]};
    if (column->type == DUCKDB_TYPE_UUID) number->high ^= UUID_SIGN;
    return true;
}

static const char *text_at(const struct chunk *chunk, idx_t argument, size_t *length) {
    duckdb_string_t *text = (duckdb_string_t *)chunk->arguments[argument].data + chunk->row;
    *length = duckdb_string_t_length(*text);
    return duckdb_string_t_data(text);
}

/* The width of the second argument, or that of a key if there is no such argument. */
static bool width_at(const struct chunk *chunk, size_t *width) {
    int64_t given = BASE62_KEY_LENGTH;
    call_error error;
    if (chunk->argument_count > 1) given = ((const int64_t *)chunk->arguments[1].data)[chunk->row];
    if (!check_width(given, &error)) return set_error(chunk, &error);
    *width = (size_t)given;
    return true;
}

/* Points *alphabet to the alphabet of an argument, or to NULL if there is no such argument. */
static bool alphabet_at(struct chunk *chunk, idx_t argument, const base62_alphabet **alphabet) {
    size_t length;
    const char *characters;
    call_error error;
    *alphabet = NULL;
    if (argument >= chunk->argument_count) return true;
    *alphabet = &chunk->alphabet;
    characters = text_at(chunk, argument, &length);
    if (chunk->has_alphabet && length == sizeof chunk->characters && memcmp(characters, chunk->characters, length) == 0)
        return true;
    chunk->has_alphabet = create_alphabet(characters, length, &chunk->alphabet, &error);
    if (!chunk->has_alphabet) return set_error(chunk, &error);
    memcpy(chunk->characters, characters, length);
    return true;
}

/* Reads what the flags say: a string alone, or a string and a width. */
static inline bool encoded_at(struct chunk *chunk, encoded *given) {
    bool fixed = chunk->flags & FIXED;
    given->flags = chunk->flags;
    given->text = text_at(chunk, 0, &given->length);
    return (!fixed || width_at(chunk, &given->width)) && alphabet_at(chunk, fixed ? 2 : 1, &given->alphabet);
}

/* Results of a row */

/* Returns where a string of at most this length goes. DuckDB allocates by copying zeros, once for many rows. */
static char *reserve(struct chunk *chunk, size_t length) {
    static const char zeros[4096];
    if (chunk->block_size < length) {
        duckdb_vector_assign_string_element_len(chunk->output, chunk->row, zeros, sizeof zeros);
        chunk->block_size = sizeof zeros;
        chunk->block = ((duckdb_string_t *)chunk->results.data)[chunk->row].value.pointer.ptr;
    }
    return chunk->block;
}

/* The result is the string that was written there. DuckDB stores a short one in its row, with zeros behind it, and of a
 * longer one the first bytes and the address. */
static void set_text(struct chunk *chunk, size_t length) {
    duckdb_string_t result = {{.inlined = {(uint32_t)length, ""}}};
    if (length <= sizeof result.value.inlined.inlined) {
        memcpy(result.value.inlined.inlined, chunk->block, length);
    } else {
        memcpy(result.value.pointer.prefix, chunk->block, sizeof result.value.pointer.prefix);
        result.value.pointer.ptr = chunk->block;
        chunk->block += length;
        chunk->block_size -= length;
    }
    ((duckdb_string_t *)chunk->results.data)[chunk->row] = result;
}

static void set_number(struct chunk *chunk, base62_number number) {
    duckdb_uhugeint value = {number.low, number.high};
    if (chunk->results.type == DUCKDB_TYPE_UUID) value.upper ^= UUID_SIGN;
    ((duckdb_uhugeint *)chunk->results.data)[chunk->row] = value;
}

static bool set_fixed(struct chunk *chunk, const base62_alphabet *alphabet, base62_number number, size_t width) {
    call_error error;
    if (!encode_width(alphabet, number, reserve(chunk, width), width, &error)) return set_error(chunk, &error);
    set_text(chunk, width);
    return true;
}

/* Functions. Each computes one row, and returns false after an error. */

static inline bool encode(struct chunk *chunk) {
    bool fixed = chunk->flags & FIXED;
    base62_number number;
    size_t width;
    const base62_alphabet *alphabet;
    if (!number_at(chunk, &number) || (fixed && !width_at(chunk, &width)) ||
        !alphabet_at(chunk, fixed ? 2 : 1, &alphabet))
        return false;
    if (fixed) return set_fixed(chunk, alphabet, number, width);
    set_text(chunk, encode_shortest(alphabet, number, reserve(chunk, BASE62_MAX_DIGITS)));
    return true;
}

static inline bool encode_key(struct chunk *chunk) {
    base62_number number;
    if (!number_at(chunk, &number)) return false;
    base62_encode_key(number, reserve(chunk, BASE62_KEY_LENGTH));
    set_text(chunk, BASE62_KEY_LENGTH);
    return true;
}

static inline bool decode(struct chunk *chunk) {
    encoded given;
    base62_number number;
    bool decoded;
    call_error error;
    if (!encoded_at(chunk, &given)) return false;
    if (chunk->results.type == DUCKDB_TYPE_BIGINT)
        decoded =
            decode_to_bigint(&given, "base62_decode_uhugeint", (int64_t *)chunk->results.data + chunk->row, &error);
    else if ((decoded = decode_text(&given, &number, &error)))
        set_number(chunk, number);
    if (!decoded && given.flags & TRY) set_null(chunk);
    return decoded || given.flags & TRY || set_error(chunk, &error);
}

static inline bool is_valid(struct chunk *chunk) {
    encoded given;
    base62_number number;
    call_error error;
    if (!encoded_at(chunk, &given)) return false;
    ((bool *)chunk->results.data)[chunk->row] = decode_text(&given, &number, &error);
    return true;
}

/* Finds the numbers whose strings of the width begin with the prefix. If there are none, the row becomes null. */
static bool range_at(struct chunk *chunk, size_t *width, bool *empty, base62_range *range) {
    size_t length;
    const char *prefix = text_at(chunk, 0, &length);
    const base62_alphabet *alphabet;
    call_error error;
    if (!width_at(chunk, width) || !alphabet_at(chunk, 2, &alphabet)) return false;
    if (!range_of_prefix(alphabet, prefix, length, *width, range, empty, &error)) return set_error(chunk, &error);
    if (*empty) set_null(chunk);
    return true;
}

static inline bool string_bound(struct chunk *chunk) {
    size_t width;
    bool empty;
    base62_range range;
    if (!range_at(chunk, &width, &empty, &range)) return false;
    return empty || set_fixed(chunk, NULL, chunk->flags & LAST ? range.greatest : range.least, width);
}

static inline bool number_bound(struct chunk *chunk) {
    size_t width;
    bool empty, last = chunk->flags & LAST;
    base62_range range;
    if (!range_at(chunk, &width, &empty, &range)) return false;
    if (empty) return true;
    if (chunk->results.type != DUCKDB_TYPE_BIGINT)
        set_number(chunk, last ? range.greatest : range.least);
    else if (!bigint_bound(range, last, (int64_t *)chunk->results.data + chunk->row))
        set_null(chunk);
    return true;
}

static inline bool version(struct chunk *chunk) {
    memcpy(reserve(chunk, strlen(BASE62_VERSION)), BASE62_VERSION, strlen(BASE62_VERSION));
    set_text(chunk, strlen(BASE62_VERSION));
    return true;
}

#define OVER_ROWS(function)                                                                                            \
    static void function##_rows(duckdb_function_info info, duckdb_data_chunk input, duckdb_vector output) {            \
        struct chunk chunk;                                                                                            \
        begin(&chunk, info, input, output);                                                                            \
        for (; chunk.row < chunk.rows; chunk.row++)                                                                    \
            if (chunk.has_nulls && is_null(&chunk))                                                                    \
                set_null(&chunk);                                                                                      \
            else if (!function(&chunk))                                                                                \
                return;                                                                                                \
    }

OVER_ROWS(encode)
OVER_ROWS(encode_key)
OVER_ROWS(decode)
OVER_ROWS(is_valid)
OVER_ROWS(string_bound)
OVER_ROWS(number_bound)
OVER_ROWS(version)

/* The extension */

#define BIGINT DUCKDB_TYPE_BIGINT
#define UHUGEINT DUCKDB_TYPE_UHUGEINT
#define UUID DUCKDB_TYPE_UUID
#define TEXT DUCKDB_TYPE_VARCHAR
#define BOOLEAN DUCKDB_TYPE_BOOLEAN

/* The types of a first parameter. DuckDB converts smaller integers to these. */
static const duckdb_type numbers[] = {BIGINT, DUCKDB_TYPE_UBIGINT, DUCKDB_TYPE_HUGEINT, UHUGEINT, 0};
static const duckdb_type uuids[] = {UUID, 0};
static const duckdb_type texts[] = {TEXT, DUCKDB_TYPE_BLOB, 0};
static const duckdb_type nothing[] = {TEXT, 0};

/* The decoder of a form, and the one that tries. */
#define DECODERS(form, min, max, result, flags, ...)                                                                   \
    {"base62_decode" form, min, max, texts, {__VA_ARGS__}, result, flags, decode_rows}, {                              \
        "base62_try_decode" form, min, max, texts, {__VA_ARGS__}, result, (flags) | TRY, decode_rows                   \
    }

static const struct function {
    const char *name;
    /* The parameters beyond min_arguments may be omitted. */
    idx_t min_arguments, max_arguments;
    const duckdb_type *first;
    duckdb_type rest[2], result;
    int flags;
    duckdb_scalar_function_t call;
} functions[] = {
    {"base62_encode", 1, 2, numbers, {TEXT}, TEXT, 0, encode_rows},
    {"base62_encode_uuid", 1, 2, uuids, {TEXT}, TEXT, 0, encode_rows},
    {"base62_encode_key", 1, 1, numbers, {0}, TEXT, 0, encode_key_rows},
    {"base62_encode_uuid_key", 1, 1, uuids, {0}, TEXT, 0, encode_key_rows},
    {"base62_encode_fixed", 2, 3, numbers, {BIGINT, TEXT}, TEXT, FIXED, encode_rows},
    {"base62_encode_uuid_fixed", 2, 3, uuids, {BIGINT, TEXT}, TEXT, FIXED, encode_rows},
    DECODERS("", 1, 2, BIGINT, 0, TEXT),
    DECODERS("_uhugeint", 1, 2, UHUGEINT, 0, TEXT),
    DECODERS("_uuid", 1, 2, UUID, 0, TEXT),
    DECODERS("_canonical", 1, 2, BIGINT, CANONICAL, TEXT),
    DECODERS("_uhugeint_canonical", 1, 2, UHUGEINT, CANONICAL, TEXT),
    DECODERS("_uuid_canonical", 1, 2, UUID, CANONICAL, TEXT),
    DECODERS("_fixed", 2, 3, BIGINT, FIXED, BIGINT, TEXT),
    DECODERS("_uhugeint_fixed", 2, 3, UHUGEINT, FIXED, BIGINT, TEXT),
    DECODERS("_uuid_fixed", 2, 3, UUID, FIXED, BIGINT, TEXT),
    DECODERS("_key", 1, 1, BIGINT, KEY, 0),
    DECODERS("_uhugeint_key", 1, 1, UHUGEINT, KEY, 0),
    DECODERS("_uuid_key", 1, 1, UUID, KEY, 0),
    {"base62_is_valid", 1, 2, texts, {TEXT}, BOOLEAN, TRY, is_valid_rows},
    {"base62_is_canonical", 1, 2, texts, {TEXT}, BOOLEAN, CANONICAL | TRY, is_valid_rows},
    {"base62_first_string", 1, 2, texts, {BIGINT}, TEXT, 0, string_bound_rows},
    {"base62_last_string", 1, 2, texts, {BIGINT}, TEXT, LAST, string_bound_rows},
    {"base62_first_number", 2, 3, texts, {BIGINT, TEXT}, BIGINT, 0, number_bound_rows},
    {"base62_last_number", 2, 3, texts, {BIGINT, TEXT}, BIGINT, LAST, number_bound_rows},
    {"base62_first_uhugeint", 2, 3, texts, {BIGINT, TEXT}, UHUGEINT, 0, number_bound_rows},
    {"base62_last_uhugeint", 2, 3, texts, {BIGINT, TEXT}, UHUGEINT, LAST, number_bound_rows},
    {"base62_version", 0, 0, nothing, {0}, TEXT, 0, version_rows},
};

static void set_type(duckdb_scalar_function function, duckdb_type type,
                     void (*set)(duckdb_scalar_function, duckdb_logical_type)) {
    duckdb_logical_type logical = duckdb_create_logical_type(type);
    set(function, logical);
    duckdb_destroy_logical_type(&logical);
}

/* With the first arguments, of which the very first has this type. */
static bool add_overload(duckdb_scalar_function_set set, const struct function *function, idx_t argument_count,
                         duckdb_type first) {
    duckdb_scalar_function overload = duckdb_create_scalar_function();
    bool added;
    duckdb_scalar_function_set_name(overload, function->name);
    for (idx_t i = 0; i < argument_count; i++)
        set_type(overload, i == 0 ? first : function->rest[i - 1], duckdb_scalar_function_add_parameter);
    set_type(overload, function->result, duckdb_scalar_function_set_return_type);
    duckdb_scalar_function_set_extra_info(overload, (void *)(intptr_t)function->flags, NULL);
    duckdb_scalar_function_set_function(overload, function->call);
    added = duckdb_add_scalar_function_to_set(set, overload) == DuckDBSuccess;
    duckdb_destroy_scalar_function(&overload);
    return added;
}

static bool create_function(duckdb_connection connection, const struct function *function) {
    duckdb_scalar_function_set set = duckdb_create_scalar_function_set(function->name);
    bool created = true;
    for (idx_t n = function->min_arguments; n <= function->max_arguments; n++)
        for (const duckdb_type *first = function->first; created && *first != 0; first++)
            created = add_overload(set, function, n, *first);
    created = created && duckdb_register_scalar_function_set(connection, set) == DuckDBSuccess;
    duckdb_destroy_scalar_function_set(&set);
    return created;
}

DUCKDB_EXTENSION_ENTRYPOINT(duckdb_connection connection, duckdb_extension_info info,
                            struct duckdb_extension_access *access) {
    for (size_t i = 0; i < sizeof functions / sizeof *functions; i++)
        if (!create_function(connection, &functions[i])) {
            access->set_error(info, "base62: the functions could not be created");
            return false;
        }
    return true;
}
