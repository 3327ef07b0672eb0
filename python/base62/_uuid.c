/* SPDX-License-Identifier: MIT */
/* Copyright (c) 2026 the maintainers of base62 for Rattle */

/* Hand-written. UUIDs as arguments and as results. */
#include "_base62.h"

/* Reads a string for a UUID, or its 16 bytes. Returns -1 if it is neither. */
int read_uuid(struct text text, int is_string, base62_number *number) {
    unsigned char uuid[BASE62_UUID_LENGTH];
    if (!is_string && text.length == BASE62_UUID_LENGTH)
        memcpy(uuid, text.bytes, sizeof uuid);
    else if (!is_string || base62_uuid_from_string(text.bytes, (size_t)text.length, uuid) != BASE62_OK)
        return -1;
    *number = base62_from_uuid(uuid);
    return 0;
}

static int number_of_text_or_raise(struct state *state, PyObject *argument, base62_number *number) {
    struct text text;
    if (text_or_raise(state, argument, &text) != 0) return -1;
    int failed = read_uuid(text, PyUnicode_Check(argument), number);
    Py_DecRef(text.owner);
    if (failed != 0)
        PyErr_SetString(PyExc_ValueError, "a UUID is 32 hexadecimal digits, with hyphens or without, "
                                          "in braces or after urn:uuid:, or 16 bytes");
    return failed;
}

/* UUID.int is an int, but a program can store any object there. */
PyObject *uuid_int_or_raise(struct state *state, PyObject *argument, const char *expected) {
    int is_uuid = PyObject_IsInstance(argument, state->objects[UUID]);
    if (is_uuid == 0) raise_type_error(expected, argument);
    PyObject *attribute = is_uuid > 0 ? PyObject_GetAttr(argument, state->objects[INT]) : NULL;
    PyObject *integer = attribute == NULL ? NULL : PyNumber_Index(attribute);
    Py_DecRef(attribute);
    return integer;
}

int uuid_or_raise(struct state *state, PyObject *argument, base62_number *number) {
    if (PyUnicode_Check(argument) || PyBytes_Check(argument)) return number_of_text_or_raise(state, argument, number);
    PyObject *integer = uuid_int_or_raise(state, argument, "a UUID is a uuid.UUID, a str or 16 bytes");
    int failed = integer == NULL ? -1 : number_or_raise(state, integer, number);
    Py_DecRef(integer);
    return failed;
}

/* Sets the attributes that UUID.__init__ sets after its checks. */
static PyObject *uuid_of_int(struct state *state, PyObject *integer) {
    PyObject *uuid = PyType_GenericAlloc((PyTypeObject *)state->objects[UUID], 0);
    if (uuid != NULL && PyObject_GenericSetAttr(uuid, state->objects[INT], integer) == 0 &&
        PyObject_GenericSetAttr(uuid, state->objects[IS_SAFE], state->objects[UNKNOWN]) == 0)
        return uuid;
    Py_DecRef(uuid);
    return NULL;
}

PyObject *new_uuid(struct state *state, base62_number number) {
    int has_other_fields = state->objects[UNKNOWN] == Py_None;
    PyObject *integer = new_int(state, number), *uuid = NULL;
    if (integer != NULL) uuid = has_other_fields ? convert(state, INT_TO_UUID, integer) : uuid_of_int(state, integer);
    Py_DecRef(integer);
    return uuid;
}
