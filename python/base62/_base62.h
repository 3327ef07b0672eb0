/* SPDX-License-Identifier: MIT */
/* Copyright (c) 2026 the maintainers of base62 for Rattle */

/* What the files of the extension _base62 share. */
#ifndef BASE62_PYTHON_H
#define BASE62_PYTHON_H

#define Py_LIMITED_API 0x030b0000
#include <Python.h>
/* Before the pragma, which would hide the functions of the C library too. */
#include <string.h>

#ifdef __GNUC__
#pragma GCC visibility push(hidden)
#endif
#include <base62.h>

/* The objects of base62._types that the module owns, by their names there. */
#define FOR_EACH_TYPE(DO)                                                                                              \
    DO(TO_BYTES, "to_bytes")                                                                                           \
    DO(TO_CHARACTERS, "to_characters")                                                                                 \
    DO(INT_TO_UUID, "int_to_uuid")                                                                                     \
    DO(UUID, "UUID")                                                                                                   \
    DO(INT, "INT")                                                                                                     \
    DO(IS_SAFE, "IS_SAFE")                                                                                             \
    DO(UNKNOWN, "UNKNOWN")                                                                                             \
    DO(BYTES_SIZE, "BYTES_SIZE")                                                                                       \
    DO(EMPTY_INPUT_ERROR, "EmptyInputError")                                                                           \
    DO(INVALID_BYTE_ERROR, "InvalidByteError")                                                                         \
    DO(TOO_LARGE_ERROR, "TooLargeError")                                                                               \
    DO(NOT_CANONICAL_ERROR, "NotCanonicalError")                                                                       \
    DO(WRONG_LENGTH_ERROR, "WrongLengthError")                                                                         \
    DO(ALPHABET_ERROR, "AlphabetError")                                                                                \
    DO(OUT_OF_RANGE_ERROR, "OutOfRangeError")

#define CONSTANT_OF_TYPE(constant, name) constant,
#define NAME_OF_TYPE(constant, name) name,

/* The objects that the module owns. */
enum { FOR_EACH_TYPE(CONSTANT_OF_TYPE) TYPES_END, ALPHABET = TYPES_END, STANDARD, ALTERNATIVE, OBJECT_COUNT };

/* The objects are there as long as the module: the collector breaks its cycles by its dict, and by the type Alphabet. */
struct state {
    PyObject *objects[OBJECT_COUNT];
    /* The size of a bytes object without its items, and whether the fields of an Alphabet follow them. */
    Py_ssize_t bytes_basicsize;
    int has_fields;
};

/* Bytes, and a reference to the object that contains them. It is NULL if this is a str that the caller owns. */
struct text {
    const char *bytes;
    Py_ssize_t length;
    PyObject *owner;
};

struct alphabet {
    base62_alphabet tables;
    char is_ascii;
};

typedef base62_status decode_with(const base62_alphabet *, const char *, size_t, base62_number *, base62_bad_byte *);

/* Py_IncRef and Py_DecRef are functions of the running Python. Macros of 3.11 would count objects that are immortal
   since 3.12. */
static inline PyObject *new_ref(PyObject *object) {
    Py_IncRef(object);
    return object;
}

/* The fields that Alphabet adds to bytes, if has_fields. bytes has a variable size, so they follow its items. */
static inline struct alphabet *fields_of(const struct state *state, PyObject *object) {
    return (struct alphabet *)((char *)object + state->bytes_basicsize + Py_SIZE(object));
}

/* In _base62.c: objects of the module, arguments and results. */
PyObject *convert(struct state *state, int converter, PyObject *argument);
int number_or_raise(struct state *state, PyObject *argument, base62_number *number);
int steal_bytes_or_raise(PyObject *bytes, struct text *text);
int text_or_raise(struct state *state, PyObject *argument, struct text *text);
const struct alphabet *alphabet_or_raise(struct state *state, PyObject *argument, struct alphabet *storage);
PyObject *new_int(struct state *state, base62_number number);
PyObject *raise_status(struct state *state, base62_status status, base62_bad_byte bad, const char *hint);
void raise_type_error(const char *expected, PyObject *argument);

/* In _alphabet.c. */
PyObject *characters_or_raise(struct state *state, PyObject *argument, struct alphabet *alphabet);
int add_alphabets(PyObject *module);

/* In _columns.c. */
PyObject *convert_rows(PyObject *module, PyObject *args);
PyObject *pack_rows(PyObject *module, PyObject *args);

/* In _uuid.c. */
int read_uuid(struct text text, int is_string, base62_number *number);
PyObject *uuid_int_or_raise(struct state *state, PyObject *argument, const char *expected);
int uuid_or_raise(struct state *state, PyObject *argument, base62_number *number);
PyObject *new_uuid(struct state *state, base62_number number);

#endif
