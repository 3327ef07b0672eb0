/* SPDX-License-Identifier: MIT */
/* Copyright (c) 2026 the maintainers of base62 for Rattle */

/* Hand-written. The type Alphabet: a bytes object with the tables of the library behind its items. */
#include "_base62.h"
#include "_docstrings.h"

static int init_alphabet_or_raise(struct state *state, struct text characters, struct alphabet *alphabet) {
    if (characters.length != BASE62_ALPHABET_LENGTH) {
        const char *plural = characters.length == 1 ? "" : "s", *hint = "";
        if (strcmp(characters.bytes, "standard") == 0) hint = "; pass Alphabet.STANDARD";
        if (strcmp(characters.bytes, "alternative") == 0) hint = "; pass Alphabet.ALTERNATIVE";
        PyErr_Format(PyExc_ValueError, "the alphabet has %zd character%s, not 62%s", characters.length, plural, hint);
        return -1;
    }
    base62_bad_byte bad = {0, 0};
    base62_status status = base62_alphabet_init(&alphabet->tables, characters.bytes, &bad);
    if (status != BASE62_OK) raise_status(state, status, bad, "");
    alphabet->is_ascii = 1;
    for (int i = 0; i < BASE62_ALPHABET_LENGTH; i++)
        if ((unsigned char)characters.bytes[i] > 127) alphabet->is_ascii = 0;
    return status == BASE62_OK ? 0 : -1;
}

/* Creates the fields of an alphabet from an argument that is not an Alphabet. Returns its characters. */
PyObject *characters_or_raise(struct state *state, PyObject *argument, struct alphabet *alphabet) {
    struct text characters;
    PyObject *bytes = PyBytes_Check(argument) ? new_ref(argument) : convert(state, TO_CHARACTERS, argument);
    if (steal_bytes_or_raise(bytes, &characters) != 0) return NULL;
    if (init_alphabet_or_raise(state, characters, alphabet) == 0) return bytes;
    Py_DecRef(bytes);
    return NULL;
}

static PyObject *new_bytes(PyObject *bytes) {
    return PyBytes_FromStringAndSize(PyBytes_AsString(bytes), PyBytes_Size(bytes));
}

static PyObject *new_alphabet_of(struct state *state, PyTypeObject *type, PyObject *characters,
                                 const struct alphabet *fields) {
    newfunc bytes_new = (newfunc)PyType_GetSlot(&PyBytes_Type, Py_tp_new);
    /* A subclass of bytes could override what its bytes are. */
    PyObject *tuple = bytes_new == NULL ? NULL : Py_BuildValue("(N)", new_bytes(characters));
    PyObject *object = tuple == NULL ? NULL : bytes_new(type, tuple, NULL);
    Py_DecRef(tuple);
    if (object == NULL) return NULL;
    state->has_fields = (char *)fields_of(state, object) == PyBytes_AsString(object) + BASE62_ALPHABET_LENGTH + 1;
    if (state->has_fields) *fields_of(state, object) = *fields;
    return object;
}

static PyObject *alphabet_new(PyTypeObject *type, PyObject *tuple, PyObject *dict) {
    static const char *const names[] = {"characters", NULL};
    struct state *state = PyType_GetModuleState(type);
    PyObject *argument;
    if (state == NULL || !PyArg_ParseTupleAndKeywords(tuple, dict, "O:Alphabet", (char **)names, &argument))
        return NULL;
    struct alphabet fields;
    PyObject *characters = characters_or_raise(state, argument, &fields);
    PyObject *object = characters == NULL ? NULL : new_alphabet_of(state, type, characters, &fields);
    Py_DecRef(characters);
    return object;
}

static void alphabet_dealloc(PyObject *self) {
    PyTypeObject *type = Py_TYPE(self);
    PyObject_GC_UnTrack(self);
    PyObject_GC_Del(self);
    Py_DecRef((PyObject *)type);
}

/* The built-in alphabets are attributes of their type, so they and the type refer to each other. */
static int alphabet_traverse(PyObject *self, visitproc visit, void *arg) {
    Py_VISIT(Py_TYPE(self));
    return 0;
}

/* The name of a built-in alphabet, and NULL for another one. */
static const char *name_of(PyObject *self) {
    const struct state *state = PyType_GetModuleState(Py_TYPE(self));
    if (state == NULL) PyErr_Clear();
    if (state != NULL && self == state->objects[STANDARD]) return "Alphabet.STANDARD";
    if (state != NULL && self == state->objects[ALTERNATIVE]) return "Alphabet.ALTERNATIVE";
    return NULL;
}

static PyObject *alphabet_repr(PyObject *self) {
    const char *name = name_of(self);
    if (name != NULL) return PyUnicode_FromString(name);
    PyObject *characters = new_bytes(self),
             *repr = characters == NULL ? NULL : PyUnicode_FromFormat("Alphabet(%R)", characters);
    Py_DecRef(characters);
    return repr;
}

/* For pickle and copy: the name of a built-in alphabet, or how to create another one. */
static PyObject *alphabet_reduce(PyObject *self, PyObject *unused) {
    (void)unused;
    const char *name = name_of(self);
    if (name != NULL) return PyUnicode_FromString(name);
    return Py_BuildValue("O(N)", Py_TYPE(self), new_bytes(self));
}

static PyMethodDef alphabet_methods[] = {
    {"__reduce__", alphabet_reduce, METH_NOARGS, NULL},
    {NULL, NULL, 0, NULL},
};

static PyType_Slot alphabet_slots[] = {
    {Py_tp_doc, (void *)DOC_Alphabet}, {Py_tp_new, alphabet_new},
    {Py_tp_dealloc, alphabet_dealloc}, {Py_tp_traverse, alphabet_traverse},
    {Py_tp_repr, alphabet_repr},       {Py_tp_str, alphabet_repr},
    {Py_tp_methods, alphabet_methods}, {0, NULL},
};

static int add_type(PyObject *module) {
    struct state *state = PyModule_GetState(module);
    state->bytes_basicsize = PyLong_AsSsize_t(state->objects[BYTES_SIZE]);
    if (state->bytes_basicsize < 0) return 0;
    PyType_Spec spec = {
        .name = "base62.Alphabet",
        .basicsize = (int)(state->bytes_basicsize + (Py_ssize_t)sizeof(struct alphabet)),
        .itemsize = 1,
        .flags = Py_TPFLAGS_DEFAULT | Py_TPFLAGS_HAVE_GC | Py_TPFLAGS_IMMUTABLETYPE,
        .slots = alphabet_slots,
    };
    state->objects[ALPHABET] = PyType_FromModuleAndSpec(module, &spec, (PyObject *)&PyBytes_Type);
    /* 3.11 does not always report that an allocation failed. */
    if (state->objects[ALPHABET] == NULL && PyErr_Occurred() == NULL) PyErr_NoMemory();
    return state->objects[ALPHABET] != NULL && PyModule_AddObjectRef(module, "Alphabet", state->objects[ALPHABET]) == 0;
}

/* Setting an attribute of an immutable type raises TypeError, so it is stored in the type's __dict__. */
static int add_built_in(PyObject *module, int which, const char *name, const char *characters) {
    PyObject **objects = ((struct state *)PyModule_GetState(module))->objects, *type = objects[ALPHABET];
    objects[which] = PyObject_CallFunction(type, "y", characters);
    PyObject *dict = objects[which] == NULL ? NULL : PyObject_GenericGetDict(type, NULL);
    int ok = dict != NULL && PyDict_SetItemString(dict, name, objects[which]) == 0;
    PyType_Modified((PyTypeObject *)type);
    Py_DecRef(dict);
    return ok;
}

int add_alphabets(PyObject *module) {
    return add_type(module) && add_built_in(module, STANDARD, "STANDARD", BASE62_STANDARD_ALPHABET) &&
           add_built_in(module, ALTERNATIVE, "ALTERNATIVE", BASE62_ALTERNATIVE_ALPHABET);
}
