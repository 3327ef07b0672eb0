/* SPDX-License-Identifier: MIT */
/* Copyright (c) 2026 the maintainers of base62 for Rattle */

/* Hand-written. The loop of base62.columns over the buffers of Arrow arrays. Whatever these contain, nothing outside
   of them is read or written, if what a call reads does not change until it returns: it runs without the GIL. A type
   is a letter of Arrow's C data interface: uint64 L, int64 l, decimal128 d, fixed_size_binary(16) w, string u,
   binary z, large_string U, large_binary Z. Decimals are little-endian: columns.py is for such machines only. */
#include "_base62.h"
#include <math.h>

/* An array to read: so many rows, from an offset on. An index counts from the start of the buffers. A buffer that it
   lacks is NULL. */
struct source {
    int type;
    Py_ssize_t offset, count;
    Py_buffer validity, values, characters;
};

/* An array to write. */
struct result {
    int type;
    Py_buffer validity, offsets, values;
    /* The length of its strings, and how many of its rows are null. */
    Py_ssize_t used, nulls;
};

struct conversion {
    struct source source;
    struct result result;
    struct alphabet storage;
    const base62_alphabet *alphabet;
    /* Numbers are encoded. Otherwise strings are decoded. */
    int encodes;
    /* The width, or ANY_WIDTH, or of decoding CANONICAL. */
    Py_ssize_t width;
    /* Of decoding: the function, NULL if there is a width, and the greatest number of the type of the result. */
    decode_with *decode;
    base62_number greatest;
    /* The bytes that a row of the result needs at most. */
    Py_ssize_t most;
    /* Invalid rows become null. Otherwise the first one ends the conversion. */
    int coerces;
    /* The rows that are converted. */
    Py_ssize_t row;
};

enum outcome { VALID, MISSING, INVALID, MALFORMED };

/* In place of a width. ANY_WIDTH encodes canonical strings, and decodes any. */
enum { ANY_WIDTH = -1, CANONICAL = -2 };

/* 2^64 - 1 has so many. */
enum { MAX_DIGITS_OF_64_BITS = 11 };

static int is_text(int type) { return type == 'u' || type == 'z' || type == 'U' || type == 'Z'; }

static int has_large_offsets(int type) { return type == 'U' || type == 'Z'; }

/* The size of a value, or of an offset. */
static Py_ssize_t size_of(int type) {
    return type == 'd' || type == 'w' ? BASE62_UUID_LENGTH : type == 'u' || type == 'z' ? 4 : 8;
}

static int is_null(const struct source *source, Py_ssize_t index) {
    const unsigned char *bits = source->validity.buf;
    return bits != NULL && (bits[index / 8] >> index % 8 & 1) == 0;
}

static int has(const Py_buffer *buffer, Py_ssize_t count, Py_ssize_t size) { return count <= buffer->len / size; }

static unsigned char *place_at(const Py_buffer *buffer, Py_ssize_t index, Py_ssize_t size) {
    return (unsigned char *)buffer->buf + index * size;
}

static enum outcome read_text(const struct source *source, Py_ssize_t index, struct text *text) {
    int64_t ends[2];
    if (has_large_offsets(source->type)) {
        memcpy(ends, place_at(&source->values, index, sizeof *ends), sizeof ends);
    } else {
        int32_t small[2];
        memcpy(small, place_at(&source->values, index, sizeof *small), sizeof small);
        ends[0] = small[0];
        ends[1] = small[1];
    }
    if (ends[0] < 0 || ends[1] < ends[0] || ends[1] > source->characters.len) return MALFORMED;
    text->bytes = (const char *)source->characters.buf + ends[0];
    text->length = (Py_ssize_t)(ends[1] - ends[0]);
    return VALID;
}

static enum outcome read_number(const struct source *source, Py_ssize_t index, base62_number *number) {
    uint64_t halves[2];
    struct text text;
    switch (source->type) {
    case 'L':
    case 'l':
        memcpy(halves, place_at(&source->values, index, sizeof *halves), sizeof *halves);
        *number = base62_from_u64(halves[0]);
        return source->type == 'l' && halves[0] > INT64_MAX ? INVALID : VALID;
    case 'd':
        /* Two's complement. */
        memcpy(halves, place_at(&source->values, index, sizeof halves), sizeof halves);
        *number = (base62_number){.high = halves[1], .low = halves[0]};
        return number->high > INT64_MAX ? INVALID : VALID;
    case 'w':
        *number = base62_from_uuid(place_at(&source->values, index, BASE62_UUID_LENGTH));
        return VALID;
    }
    if (read_text(source, index, &text) != VALID) return MALFORMED;
    return read_uuid(text, source->type == 'u' || source->type == 'U', number) == 0 ? VALID : INVALID;
}

static void store_offset(const struct result *result, Py_ssize_t row) {
    int64_t large = result->used;
    int32_t small = (int32_t)result->used;
    if (has_large_offsets(result->type))
        memcpy(place_at(&result->offsets, row, sizeof large), &large, sizeof large);
    else
        memcpy(place_at(&result->offsets, row, sizeof small), &small, sizeof small);
}

/* Stores a decoded number. */
static void store_number(struct result *result, Py_ssize_t row, base62_number number) {
    const uint64_t halves[2] = {number.low, number.high};
    unsigned char uuid[BASE62_UUID_LENGTH];
    if (result->type == 'L' || result->type == 'l') {
        memcpy(place_at(&result->values, row, sizeof *halves), halves, sizeof *halves);
    } else if (result->type == 'd') {
        memcpy(place_at(&result->values, row, sizeof halves), halves, sizeof halves);
    } else if (result->type == 'w') {
        base62_to_uuid(number, place_at(&result->values, row, BASE62_UUID_LENGTH));
    } else {
        base62_to_uuid(number, uuid);
        base62_uuid_to_string(uuid, (char *)result->values.buf + result->used);
        result->used += BASE62_UUID_STRING_LENGTH;
    }
}

/* Makes a row null, which then has no string, or 0. Returns 0 if the row ends the conversion instead. */
static int set_null(struct conversion *conversion, Py_ssize_t row, enum outcome outcome) {
    struct result *result = &conversion->result;
    if (outcome == MALFORMED || (outcome == INVALID && !conversion->coerces)) return 0;
    *place_at(&result->validity, row / 8, 1) &= (unsigned char)~(1 << row % 8);
    result->nulls++;
    if (!is_text(result->type)) memset(place_at(&result->values, row, conversion->most), 0, (size_t)conversion->most);
    return 1;
}

static enum outcome encode_row(struct conversion *conversion, Py_ssize_t row) {
    struct result *result = &conversion->result;
    base62_number number;
    enum outcome outcome = read_number(&conversion->source, conversion->source.offset + row, &number);
    if (outcome != VALID) return outcome;
    char *place = (char *)result->values.buf + result->used;
    size_t left = (size_t)(result->values.len - result->used), width = (size_t)conversion->width;
    size_t length = conversion->width < 0 ? base62_encode_with(conversion->alphabet, number, place, left)
                                          : base62_encode_fixed_with(conversion->alphabet, number, place, width);
    result->used += (Py_ssize_t)length;
    return length == 0 ? INVALID : VALID;
}

static enum outcome decode_row(struct conversion *conversion, Py_ssize_t row) {
    const base62_number *most = &conversion->greatest;
    struct text text;
    base62_number number;
    base62_bad_byte bad;
    if (read_text(&conversion->source, conversion->source.offset + row, &text) != VALID) return MALFORMED;
    size_t length = (size_t)text.length, width = (size_t)conversion->width;
    base62_status status =
        conversion->decode != NULL
            ? conversion->decode(conversion->alphabet, text.bytes, length, &number, &bad)
            : base62_decode_fixed_with(conversion->alphabet, text.bytes, length, width, &number, &bad);
    if (status != BASE62_OK || number.high > most->high || (number.high == most->high && number.low > most->low))
        return INVALID;
    store_number(&conversion->result, row, number);
    return VALID;
}

/* Returns the outcome of the row that ends the conversion, if it is before the end. */
static enum outcome convert_until(struct conversion *conversion, Py_ssize_t end) {
    for (; conversion->row < end; conversion->row++) {
        Py_ssize_t row = conversion->row;
        enum outcome outcome = is_null(&conversion->source, conversion->source.offset + row) ? MISSING
                               : conversion->encodes ? encode_row(conversion, row)
                                                     : decode_row(conversion, row);
        if (outcome != VALID && !set_null(conversion, row, outcome)) return outcome;
        if (is_text(conversion->result.type)) store_offset(&conversion->result, row + 1);
    }
    return VALID;
}

static int is_missing(PyObject *object, PyObject *missing) {
    return object == Py_None || object == missing || (PyFloat_CheckExact(object) && isnan(PyFloat_AsDouble(object)));
}

/* Reads a decimal whose string has digits alone. */
static int decimal_or_raise(struct state *state, PyObject *decimal, base62_number *number) {
    PyObject *text = PyObject_Str(decimal), *integer = text == NULL ? NULL : PyNumber_Long(text);
    int failed = integer == NULL ? -1 : number_or_raise(state, integer, number);
    Py_DecRef(integer);
    Py_DecRef(text);
    return failed;
}

/* Stores the numbers of a list as 16 bytes each, and the bits of the rows that are not missing. Returns how many are. */
PyObject *pack_rows(PyObject *module, PyObject *args) {
    struct state *state = PyModule_GetState(module);
    PyObject *rows, *missing, *decimal;
    Py_buffer validity, values;
    int are_uuids, failed = 0;
    if (!PyArg_ParseTuple(args, "O!OOpw*w*", &PyList_Type, &rows, &missing, &decimal, &are_uuids, &validity, &values))
        return NULL;
    Py_ssize_t nulls = 0;
    /* What converts an object can change the list. */
    for (Py_ssize_t row = 0; !failed && row < PyList_Size(rows) && has(&values, row + 1, BASE62_UUID_LENGTH) &&
                             has(&validity, row / 8 + 1, 1);
         row++) {
        PyObject *object = new_ref(PyList_GetItem(rows, row));
        base62_number number = base62_from_u64(0);
        if (is_missing(object, missing)) {
            nulls++;
        } else {
            failed = (PyObject *)Py_TYPE(object) == decimal ? decimal_or_raise(state, object, &number)
                     : are_uuids                            ? uuid_or_raise(state, object, &number)
                                                            : number_or_raise(state, object, &number);
            *place_at(&validity, row / 8, 1) |= (unsigned char)(1 << row % 8);
            base62_to_uuid(number, place_at(&values, row, BASE62_UUID_LENGTH));
        }
        Py_DecRef(object);
    }
    PyBuffer_Release(&validity);
    PyBuffer_Release(&values);
    return failed ? NULL : PyLong_FromSsize_t(nulls);
}

/* strchr would cut another number to a letter. */
static int is_type(int type, const char *types) { return type > 0 && type < 128 && strchr(types, type) != NULL; }

static base62_number greatest_of(int type) {
    static const base62_number of_decimal128 = {.high = 0x4b3b4ca85a86c47a, .low = 0x098a223fffffffff}; /* 10^38 - 1 */
    if (type == 'L' || type == 'l') return base62_from_u64(type == 'l' ? INT64_MAX : UINT64_MAX);
    return type == 'd' ? of_decimal128 : (base62_number){.high = UINT64_MAX, .low = UINT64_MAX};
}

/* Sets what follows from the types. Returns 0 if they are wrong. */
static int set_types(struct conversion *conversion) {
    int given = conversion->source.type, type = conversion->result.type;
    if (conversion->encodes) {
        conversion->most = given == 'L' || given == 'l' ? MAX_DIGITS_OF_64_BITS : BASE62_MAX_DIGITS;
        if (conversion->width >= 0) conversion->most = conversion->width;
        return is_type(given, "LldwuzUZ") && is_type(type, "uU");
    }
    if (conversion->width < 0)
        conversion->decode = conversion->width == CANONICAL ? base62_decode_canonical_with : base62_decode_with;
    conversion->greatest = greatest_of(type);
    conversion->most = is_text(type) ? BASE62_UUID_STRING_LENGTH : size_of(type);
    return is_type(given, "uzUZ") && is_type(type, "LldwuU");
}

/* Whether the buffers have the rows. */
static int has_rows(const struct conversion *conversion) {
    const struct source *source = &conversion->source;
    const struct result *result = &conversion->result;
    if (source->offset < 0 || source->count < 0 || source->offset > PY_SSIZE_T_MAX - 8 - source->count) return 0;
    Py_ssize_t count = source->count, last = source->offset + count;
    /* Offsets have one more, for the end of the last string. */
    return has(&source->values, last + is_text(source->type), size_of(source->type)) &&
           (source->validity.buf == NULL || has(&source->validity, (last + 7) / 8, 1)) &&
           has(&result->validity, (count + 7) / 8, 1) &&
           (conversion->most == 0 || has(&result->values, count, conversion->most)) &&
           (!is_text(result->type) || has(&result->offsets, count + 1, size_of(result->type))) &&
           (result->type != 'u' || result->values.len <= INT32_MAX);
}

/* Signals are handled between runs of rows, which on average read and write so many bytes. */
enum { RUN_BYTES = 1 << 22 };

/* The GIL is free while rows are converted. */
static enum outcome convert_runs(struct conversion *conversion) {
    const struct source *source = &conversion->source;
    if (is_text(conversion->result.type)) store_offset(&conversion->result, 0);
    while (conversion->row < source->count) {
        /* A column can be a slice of more characters. */
        Py_ssize_t read = source->characters.len / (source->values.len / size_of(source->type));
        Py_ssize_t written = conversion->result.values.len / source->count;
        /* A multiple of 8, so that no byte of a bitmap is begun twice. */
        Py_ssize_t rows = RUN_BYTES / (read + written + 1) / 8 * 8 + 8, left = source->count - conversion->row;
        if (rows > left) rows = left;
        PyThreadState *saved = PyEval_SaveThread();
        memset((char *)conversion->result.validity.buf + conversion->row / 8, 0xff, (size_t)(rows + 7) / 8);
        enum outcome outcome = convert_until(conversion, conversion->row + rows);
        PyEval_RestoreThread(saved);
        if (outcome != VALID || PyErr_CheckSignals() != 0) return outcome;
    }
    return VALID;
}

static int parse_conversion(PyObject *module, PyObject *args, struct conversion *conversion) {
    struct state *state = PyModule_GetState(module);
    struct source *source = &conversion->source;
    struct result *result = &conversion->result;
    PyObject *alphabet = PyTuple_GetItem(args, 1), *type = state->objects[ALPHABET];
    *conversion = (struct conversion){.row = 0};
    const struct alphabet *fields = alphabet == NULL ? NULL : alphabet_or_raise(state, alphabet, &conversion->storage);
    if (fields == NULL || !PyArg_ParseTuple(args, "pO!n(Cnnz*z*z*)(Cw*w*w*)p", &conversion->encodes, type, &alphabet,
                                            &conversion->width, &source->type, &source->offset, &source->count,
                                            &source->validity, &source->values, &source->characters, &result->type,
                                            &result->validity, &result->offsets, &result->values, &conversion->coerces))
        return -1;
    conversion->alphabet = &fields->tables;
    if (source->characters.buf == NULL) source->characters.buf = (char *)"";
    return 0;
}

/* Returns the rows that are converted, of which the one after may be invalid, and what the result has of them. */
static PyObject *finish(struct conversion *conversion, enum outcome outcome) {
    PyBuffer_Release(&conversion->source.validity);
    PyBuffer_Release(&conversion->source.values);
    PyBuffer_Release(&conversion->source.characters);
    PyBuffer_Release(&conversion->result.validity);
    PyBuffer_Release(&conversion->result.offsets);
    PyBuffer_Release(&conversion->result.values);
    if (outcome == MALFORMED) PyErr_SetString(PyExc_ValueError, "the array is malformed");
    if (PyErr_Occurred() != NULL) return NULL;
    return Py_BuildValue("nnn", conversion->row, conversion->result.used, conversion->result.nulls);
}

PyObject *convert_rows(PyObject *module, PyObject *args) {
    struct conversion conversion;
    if (parse_conversion(module, args, &conversion) != 0) return NULL;
    int is_whole = set_types(&conversion) && has_rows(&conversion);
    return finish(&conversion, is_whole ? convert_runs(&conversion) : MALFORMED);
}
