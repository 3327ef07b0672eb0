/* SPDX-License-Identifier: MIT */
/* Copyright (c) 2026 the maintainers of base62 for Rattle */

/* Hand-written. The functions of base62.h for Python: conversions of arguments and results, and exceptions. The
   docstrings are those of _base62.pyi, of which setup.py makes _docstrings.h. */
#include "_base62.h"
#include "_docstrings.h"

/* Converts an argument of an uncommon type by a function of base62._types. */
PyObject *convert(struct state *state, int converter, PyObject *argument) {
    return PyObject_CallFunctionObjArgs(state->objects[converter], argument, NULL);
}

/* Other threads run while the library reads or writes this many bytes or more. */
enum { GIL_RELEASE_SIZE = 4096 };

static PyThreadState *release_gil_if_long(size_t length) {
    return length < GIL_RELEASE_SIZE ? NULL : PyEval_SaveThread();
}

static void restore_gil(PyThreadState *saved) {
    if (saved != NULL) PyEval_RestoreThread(saved);
}

/* The first parameter has a name, and then there is perhaps a width, and perhaps an alphabet, which is optional. */
struct parameters {
    const char *format, *names[4];
    Py_ssize_t least, most;
};

#define OF_KEYS(name, first) "O:" name, {first, NULL}, 1, 1
#define OF_ALL(name, first) "O|O:" name, {first, "alphabet", NULL}, 1, 2
#define OF_WIDTHS(name, first) "OO|O:" name, {first, "width", "alphabet", NULL}, 2, 3

/* Borrowed from the caller. What is not given is NULL. */
struct arguments {
    PyObject *first, *width, *alphabet;
};

/* PyArg_ParseTupleAndKeywords handles keywords and wrong argument counts, and raises the exceptions. */
static int parse(const struct parameters *signature, PyObject *const *args, Py_ssize_t nargs, PyObject *kwnames,
                 struct arguments *given) {
    Py_ssize_t named = kwnames == NULL ? 0 : PyTuple_Size(kwnames);
    PyObject *tuple = named < 0 ? NULL : PyTuple_New(nargs), *dict = tuple == NULL ? NULL : PyDict_New();
    int ok = dict != NULL;
    for (Py_ssize_t i = 0; ok && i < nargs; i++) ok = PyTuple_SetItem(tuple, i, new_ref(args[i])) == 0;
    for (Py_ssize_t i = 0; ok && i < named; i++) {
        PyObject *name = PyTuple_GetItem(kwnames, i);
        ok = name != NULL && PyDict_SetItem(dict, name, args[nargs + i]) == 0;
    }
    ok = ok && PyArg_ParseTupleAndKeywords(tuple, dict, signature->format, (char **)signature->names, &given->first,
                                           signature->most == 3 ? &given->width : &given->alphabet, &given->alphabet);
    Py_DecRef(tuple);
    Py_DecRef(dict);
    return ok ? 0 : -1;
}

static inline int unpack(const struct parameters *signature, PyObject *const *args, Py_ssize_t nargs, PyObject *kwnames,
                         struct arguments *given) {
    *given = (struct arguments){NULL, NULL, NULL};
    if (kwnames != NULL || nargs < signature->least || nargs > signature->most)
        return parse(signature, args, nargs, kwnames, given);
    given->first = args[0];
    if (signature->most == 3) given->width = args[1];
    if (signature->most > 1 && nargs == signature->most) given->alphabet = args[nargs - 1];
    return 0;
}

/* Raises an exception with a message, or with a tuple of arguments, to which it steals the reference. It may be NULL. */
static void raise_error(struct state *state, int error, PyObject *arguments) {
    if (arguments != NULL) PyErr_SetObject(state->objects[error], arguments);
    Py_DecRef(arguments);
}

#define FOR_DIGITS "; to convert decimal digits, call int()"
#define FOR_UUIDS "; to encode the string of a UUID, call encode_uuid, encode_uuid_fixed or encode_uuid_key"

/* What an error for a str names: the functions that take it. */
static const char *hint_for(struct text text, int is_for_number) {
    static const char *const hints[] = {"", FOR_DIGITS, FOR_UUIDS, FOR_DIGITS FOR_UUIDS};
    base62_number number;
    int has_digits = is_for_number && text.length > 0, is_uuid = read_uuid(text, 1, &number) == 0;
    return hints[(has_digits && strspn(text.bytes, "0123456789") == (size_t)text.length) + 2 * is_uuid];
}

void raise_type_error(const char *expected, PyObject *argument) {
    struct text text = {NULL, 0, NULL};
    if (PyUnicode_Check(argument)) text.bytes = PyUnicode_AsUTF8AndSize(argument, &text.length);
    if (text.bytes == NULL) PyErr_Clear(); /* A str without UTF-8 is not ASCII, so no function takes it. */
    const char *hint = text.bytes == NULL ? "" : hint_for(text, 1);
    PyObject *name = PyType_GetName(Py_TYPE(argument));
    if (name != NULL) PyErr_Format(PyExc_TypeError, "%s, not %U%s", expected, name, hint);
    Py_DecRef(name);
}

/* Splits an int of 2^63 or more. Returns 1 if it is 2^128 or more, and -1 with an exception. */
static int split_int(PyObject *integer, base62_number *number) {
    PyObject *bits = PyLong_FromLong(64), *high = bits == NULL ? NULL : PyNumber_Rshift(integer, bits);
    Py_DecRef(bits);
    if (high == NULL) return -1;
    number->high = PyLong_AsUnsignedLongLong(high);
    Py_DecRef(high);
    if (number->high == UINT64_MAX && PyErr_Occurred() != NULL) {
        if (!PyErr_ExceptionMatches(PyExc_OverflowError)) return -1;
        PyErr_Clear();
        return 1;
    }
    number->low = PyLong_AsUnsignedLongLongMask(integer);
    return number->low == UINT64_MAX && PyErr_Occurred() != NULL ? -1 : 0;
}

/* For exactly an int, which always converts. */
static int number_of_int_or_raise(struct state *state, PyObject *integer, base62_number *number) {
    int overflow;
    long long narrow = PyLong_AsLongLongAndOverflow(integer, &overflow);
    *number = base62_from_u64((uint64_t)narrow);
    int failed = overflow > 0 ? split_int(integer, number) : narrow < 0;
    if (failed <= 0) return failed;
    raise_error(state, OUT_OF_RANGE_ERROR, PyUnicode_FromString("the number is not from 0 to 2**128 - 1"));
    return -1;
}

static PyObject *int_or_raise(struct state *state, PyObject *argument) {
    PyTypeObject *type = Py_TYPE(argument), *uuid = (PyTypeObject *)state->objects[UUID];
    if (type != uuid && PyIndex_Check(argument) && !PyType_IsSubtype(type, uuid)) return PyNumber_Index(argument);
    return uuid_int_or_raise(state, argument, "a number is an int, has __index__, or is a uuid.UUID");
}

int number_or_raise(struct state *state, PyObject *argument, base62_number *number) {
    if (PyLong_CheckExact(argument)) return number_of_int_or_raise(state, argument, number);
    PyObject *integer = int_or_raise(state, argument);
    int failed = integer == NULL ? -1 : number_of_int_or_raise(state, integer, number);
    Py_DecRef(integer);
    return failed;
}

static int raise_for_width(PyObject *argument) {
    if (!PyIndex_Check(argument))
        raise_type_error("the width is an int, or has __index__", argument);
    else if (PyErr_Occurred() == NULL)
        PyErr_SetString(PyExc_ValueError, "the width is negative");
    return -1;
}

/* Without an argument it is that of keys. A width above PY_SSIZE_T_MAX becomes PY_SSIZE_T_MAX: no string is so long, so no
   call has another result. */
static inline Py_ALWAYS_INLINE int width_or_raise(PyObject *argument, size_t *width) {
    int overflow = 0;
    *width = BASE62_KEY_LENGTH;
    if (argument == NULL) return 0;
    long long number = PyLong_CheckExact(argument) ? PyLong_AsLongLongAndOverflow(argument, &overflow)
                                                   : PyNumber_AsSsize_t(argument, NULL);
    if (overflow > 0 || number > PY_SSIZE_T_MAX) number = PY_SSIZE_T_MAX;
    *width = (size_t)number;
    return number < 0 ? raise_for_width(argument) : 0;
}

/* Steals the reference to a bytes object. It may be NULL. */
int steal_bytes_or_raise(PyObject *bytes, struct text *text) {
    text->owner = bytes;
    text->bytes = bytes == NULL ? NULL : PyBytes_AsString(bytes);
    text->length = text->bytes == NULL ? -1 : PyBytes_Size(bytes);
    if (text->length >= 0) return 0;
    Py_DecRef(bytes);
    return -1;
}

/* The bytes must not change until the library has read them, so to_bytes copies what a thread or a process can write to.
   An ASCII str is its own UTF-8, and another one keeps it. One with a lone surrogate, which is an invalid character too,
   has none. */
int text_or_raise(struct state *state, PyObject *argument, struct text *text) {
    if (!PyUnicode_Check(argument)) {
        PyObject *bytes = PyBytes_Check(argument) ? new_ref(argument) : convert(state, TO_BYTES, argument);
        return steal_bytes_or_raise(bytes, text);
    }
    text->owner = NULL;
    text->bytes = PyUnicode_AsUTF8AndSize(argument, &text->length);
    if (text->bytes != NULL) return 0;
    if (!PyErr_ExceptionMatches(PyExc_UnicodeEncodeError)) return -1;
    PyErr_Clear();
    return steal_bytes_or_raise(PyUnicode_AsEncodedString(argument, "utf-8", "surrogatepass"), text);
}

/* Borrows the fields of an Alphabet. From characters it creates such fields in *storage. */
const struct alphabet *alphabet_or_raise(struct state *state, PyObject *argument, struct alphabet *storage) {
    PyObject *object = argument == NULL ? state->objects[STANDARD] : argument;
    if ((PyObject *)Py_TYPE(object) == state->objects[ALPHABET] && state->has_fields) return fields_of(state, object);
    PyObject *characters = characters_or_raise(state, object, storage);
    Py_DecRef(characters);
    return characters == NULL ? NULL : storage;
}

static const struct alphabet *ascii_alphabet_or_raise(struct state *state, PyObject *argument,
                                                      struct alphabet *storage) {
    const struct alphabet *alphabet = alphabet_or_raise(state, argument, storage);
    if (alphabet == NULL || alphabet->is_ascii) return alphabet;
    PyErr_SetString(PyExc_ValueError, "an alphabet for encoding has ASCII characters");
    return NULL;
}

PyObject *new_int(struct state *state, base62_number number) {
    (void)state;
    if (number.high == 0) return PyLong_FromUnsignedLongLong(number.low);
    PyObject *high = PyLong_FromUnsignedLongLong(number.high), *low = PyLong_FromUnsignedLongLong(number.low);
    PyObject *bits = PyLong_FromLong(64);
    PyObject *shifted = high == NULL || low == NULL || bits == NULL ? NULL : PyNumber_Lshift(high, bits);
    PyObject *integer = shifted == NULL ? NULL : PyNumber_Or(shifted, low);
    Py_DecRef(bits);
    Py_DecRef(high);
    Py_DecRef(low);
    Py_DecRef(shifted);
    return integer;
}

PyObject *raise_status(struct state *state, base62_status status, base62_bad_byte bad, const char *hint) {
    static const int errors[] = {
        [BASE62_EMPTY_INPUT] = EMPTY_INPUT_ERROR,     [BASE62_INVALID_BYTE] = INVALID_BYTE_ERROR,
        [BASE62_OVERFLOW] = TOO_LARGE_ERROR,          [BASE62_REPEATED_CHARACTER] = ALPHABET_ERROR,
        [BASE62_NOT_CANONICAL] = NOT_CANONICAL_ERROR,
    };
    char message[BASE62_MAX_ERROR_MESSAGE + 1];
    message[base62_error_message(status, bad, message, BASE62_MAX_ERROR_MESSAGE)] = '\0';
    int error = errors[status], has_byte = error == INVALID_BYTE_ERROR || error == ALPHABET_ERROR;
    const char *said = message;
    if (error == TOO_LARGE_ERROR) said = "Encoded input represents 2**128 or more, or has more than 22 characters";
    PyObject *text = PyUnicode_FromFormat("%s%s", said, hint);
    const char *format = has_byte ? "(NBn)" : "(N)";
    raise_error(state, error, text == NULL ? NULL : Py_BuildValue(format, text, bad.byte, (Py_ssize_t)bad.index));
    return NULL;
}

/* The text of a str has no owner. */
static PyObject *raise_for_text(struct state *state, base62_status status, base62_bad_byte bad, struct text text,
                                size_t width) {
    const char *hint = text.owner == NULL ? hint_for(text, 0) : "", *plural = text.length == 1 ? "" : "s";
    if (status != BASE62_WRONG_LENGTH) return raise_status(state, status, bad, hint);
    const char *format = "Encoded input has %zd byte%s, not %zu%s";
    PyObject *message = PyUnicode_FromFormat(format, text.length, plural, width, hint);
    PyObject *arguments = message == NULL ? NULL : Py_BuildValue("(Nnn)", message, text.length, (Py_ssize_t)width);
    raise_error(state, WRONG_LENGTH_ERROR, arguments);
    return NULL;
}

typedef int read_number(struct state *, PyObject *, base62_number *);

static inline PyObject *encode_or_raise(read_number *read, struct state *state, const struct arguments *given) {
    base62_number number;
    struct alphabet storage;
    if (read(state, given->first, &number) != 0) return NULL;
    const struct alphabet *alphabet = ascii_alphabet_or_raise(state, given->alphabet, &storage);
    if (alphabet == NULL) return NULL;
    char text[BASE62_MAX_DIGITS];
    size_t length = base62_encode_with(&alphabet->tables, number, text, sizeof text);
    return PyUnicode_DecodeASCII(text, (Py_ssize_t)length, NULL);
}

static void raise_too_narrow(struct state *state, base62_number number, size_t width) {
    size_t count = base62_digit_count(number);
    const char *format = "the number needs %zu character%s, and the width is %zu", *plural = count == 1 ? "" : "s";
    raise_error(state, OUT_OF_RANGE_ERROR, PyUnicode_FromFormat(format, count, plural, width));
}

static PyObject *new_fixed_or_raise(struct state *state, const base62_alphabet *tables, base62_number number,
                                    size_t width) {
    char small[64], *buffer = width <= sizeof small ? small : PyMem_Malloc(width);
    if (buffer == NULL) return PyErr_NoMemory();
    PyThreadState *saved = release_gil_if_long(width);
    size_t length = base62_encode_fixed_with(tables, number, buffer, width);
    restore_gil(saved);
    PyObject *result = length == 0 ? NULL : PyUnicode_DecodeASCII(buffer, (Py_ssize_t)length, NULL);
    if (length == 0) raise_too_narrow(state, number, width);
    if (buffer != small) PyMem_Free(buffer);
    return result;
}

static inline PyObject *fixed_or_raise(read_number *read, struct state *state, const struct arguments *given) {
    base62_number number;
    size_t width;
    struct alphabet storage;
    if (read(state, given->first, &number) != 0 || width_or_raise(given->width, &width) != 0) return NULL;
    const struct alphabet *alphabet = ascii_alphabet_or_raise(state, given->alphabet, &storage);
    return alphabet == NULL ? NULL : new_fixed_or_raise(state, &alphabet->tables, number, width);
}

static inline PyObject *key_or_raise(read_number *read, struct state *state, const struct arguments *given) {
    base62_number number;
    char key[BASE62_KEY_LENGTH];
    if (read(state, given->first, &number) != 0) return NULL;
    base62_encode_key(number, key);
    return PyUnicode_DecodeASCII(key, sizeof key, NULL);
}

static PyObject *digit_count_or_raise(struct state *state, const struct arguments *given) {
    base62_number number;
    return number_or_raise(state, given->first, &number) == 0 ? PyLong_FromSize_t(base62_digit_count(number)) : NULL;
}

/* The arguments of a decoder. */
struct input {
    struct text text;
    size_t width;
    const struct alphabet *alphabet;
    struct alphabet storage;
};

/* The caller releases the owner of the text. */
static inline Py_ALWAYS_INLINE int input_or_raise(struct state *state, const struct arguments *given,
                                                  struct input *input) {
    if (width_or_raise(given->width, &input->width) != 0) return -1;
    if (text_or_raise(state, given->first, &input->text) != 0) return -1;
    input->alphabet = alphabet_or_raise(state, given->alphabet, &input->storage);
    if (input->alphabet == NULL) Py_DecRef(input->text.owner);
    return input->alphabet == NULL ? -1 : 0;
}

typedef PyObject *new_result(struct state *, base62_number);

/* Decodes a text, and returns the number as an object. If decode is NULL, base62_decode_fixed_with decodes it, which alone
   has a width. Inlined, a call has its decoder as a constant. */
static inline Py_ALWAYS_INLINE PyObject *decode_or_raise(decode_with *decode, new_result *new, struct state *state,
                                                         const struct arguments *given) {
    struct input input;
    base62_number number;
    base62_bad_byte bad = {0, 0};
    if (input_or_raise(state, given, &input) != 0) return NULL;
    const base62_alphabet *tables = &input.alphabet->tables;
    size_t length = (size_t)input.text.length;
    PyThreadState *saved = release_gil_if_long(length);
    base62_status status = decode != NULL
                               ? decode(tables, input.text.bytes, length, &number, &bad)
                               : base62_decode_fixed_with(tables, input.text.bytes, length, input.width, &number, &bad);
    restore_gil(saved);
    Py_DecRef(input.text.owner);
    if (status != BASE62_OK) return raise_for_text(state, status, bad, input.text, input.width);
    return new (state, number);
}

static PyObject *range_or_raise(struct state *state, const struct arguments *given) {
    struct input input;
    base62_range range = {{0, 0}, {0, 0}};
    base62_bad_byte bad = {0, 0};
    if (input_or_raise(state, given, &input) != 0) return NULL;
    size_t length = (size_t)input.text.length;
    PyThreadState *saved = release_gil_if_long(length);
    base62_status status =
        base62_prefix_range_with(&input.alphabet->tables, input.text.bytes, length, input.width, &range, &bad);
    restore_gil(saved);
    Py_DecRef(input.text.owner);
    if (status == BASE62_NO_MATCH) return new_ref(Py_None);
    if (status != BASE62_OK) return raise_status(state, status, bad, "");
    return Py_BuildValue("NN", new_int(state, range.least), new_int(state, range.greatest));
}

/* Each call, its parameters, and the expression of its result, which has the state and the given arguments. */
#define FOR_EACH_CALL(DO)                                                                                              \
    DO(encode, OF_ALL, "number", encode_or_raise(number_or_raise, state, &given))                                      \
    DO(encode_uuid, OF_ALL, "value", encode_or_raise(uuid_or_raise, state, &given))                                    \
    DO(encode_fixed, OF_WIDTHS, "number", fixed_or_raise(number_or_raise, state, &given))                              \
    DO(encode_uuid_fixed, OF_WIDTHS, "value", fixed_or_raise(uuid_or_raise, state, &given))                            \
    DO(encode_key, OF_KEYS, "number", key_or_raise(number_or_raise, state, &given))                                    \
    DO(encode_uuid_key, OF_KEYS, "value", key_or_raise(uuid_or_raise, state, &given))                                  \
    DO(digit_count, OF_KEYS, "number", digit_count_or_raise(state, &given))                                            \
    DO(decode, OF_ALL, "text", decode_or_raise(base62_decode_with, new_int, state, &given))                            \
    DO(decode_uuid, OF_ALL, "text", decode_or_raise(base62_decode_with, new_uuid, state, &given))                      \
    DO(decode_canonical, OF_ALL, "text", decode_or_raise(base62_decode_canonical_with, new_int, state, &given))        \
    DO(decode_uuid_canonical, OF_ALL, "text", decode_or_raise(base62_decode_canonical_with, new_uuid, state, &given))  \
    DO(decode_fixed, OF_WIDTHS, "text", decode_or_raise(NULL, new_int, state, &given))                                 \
    DO(decode_uuid_fixed, OF_WIDTHS, "text", decode_or_raise(NULL, new_uuid, state, &given))                           \
    DO(decode_key, OF_KEYS, "text", decode_or_raise(NULL, new_int, state, &given))                                     \
    DO(decode_uuid_key, OF_KEYS, "text", decode_or_raise(NULL, new_uuid, state, &given))                               \
    DO(prefix_range, OF_WIDTHS, "prefix", range_or_raise(state, &given))                                               \
    DO(key_range, OF_KEYS, "prefix", range_or_raise(state, &given))

#define DEFINE(name, parameters_of, first, result)                                                                     \
    static PyObject *name(PyObject *module, PyObject *const *args, Py_ssize_t nargs, PyObject *kwnames) {              \
        static const struct parameters signature = {parameters_of(#name, first)};                                      \
        struct state *state = PyModule_GetState(module);                                                               \
        struct arguments given;                                                                                        \
        return unpack(&signature, args, nargs, kwnames, &given) == 0 ? result : NULL;                                  \
    }
#define METHOD(name, ...) {#name, (PyCFunction)(void (*)(void))name, METH_FASTCALL | METH_KEYWORDS, DOC_##name},

FOR_EACH_CALL(DEFINE)
static PyMethodDef calls[] = {FOR_EACH_CALL(METHOD){NULL, NULL, 0, NULL}};

/* The calls name base62 as their module, since callers find them there. */
static int add_calls(PyObject *module) {
    PyObject *package = PyUnicode_FromString("base62");
    int ok = package != NULL;
    for (PyMethodDef *call = calls; ok && call->ml_name != NULL; call++) {
        PyObject *function = PyCFunction_NewEx(call, module, package);
        ok = function != NULL && PyModule_AddObjectRef(module, call->ml_name, function) == 0;
        Py_DecRef(function);
    }
    Py_DecRef(package);
    return ok;
}

static int import_types(PyObject **objects) {
    static const char *const names[TYPES_END] = {FOR_EACH_TYPE(NAME_OF_TYPE)};
    PyObject *types = PyImport_ImportModule("base62._types");
    int ok = types != NULL;
    for (int i = 0; ok && i < TYPES_END; i++) {
        objects[i] = PyObject_GetAttrString(types, names[i]);
        ok = objects[i] != NULL;
    }
    Py_DecRef(types);
    return ok;
}

static int execute(PyObject *module) {
    struct state *state = PyModule_GetState(module);
    if (state == NULL || !import_types(state->objects)) return -1;
    int ok = add_alphabets(module) && add_calls(module);
    return ok ? PyModule_AddStringConstant(module, "__version__", BASE62_VERSION) : -1;
}

static int traverse(PyObject *module, visitproc visit, void *arg) {
    struct state *state = PyModule_GetState(module);
    for (int i = 0; i < OBJECT_COUNT; i++) Py_VISIT(state->objects[i]);
    return 0;
}

static void free_module(void *module) {
    struct state *state = PyModule_GetState(module);
    for (int i = 0; i < OBJECT_COUNT; i++) Py_DecRef(state->objects[i]);
}

/* Py_mod_multiple_interpreters (3) = Py_MOD_PER_INTERPRETER_GIL_SUPPORTED (2). An interpreter with its own GIL needs
   it, from 3.12 on; 3.11 rejects it, and the limited API of 3.11 does not have the names. */
static PyModuleDef_Slot slots[] = {{3, (void *)2}, {Py_mod_exec, execute}, {0, NULL}};

static PyMethodDef row_calls[] = {
    {"_convert_rows", convert_rows, METH_VARARGS, DOC__convert_rows},
    {"_pack_rows", pack_rows, METH_VARARGS, DOC__pack_rows},
    {NULL, NULL, 0, NULL},
};

#define DEFINITION(module_slots)                                                                                       \
    {                                                                                                                  \
        .m_base = PyModuleDef_HEAD_INIT, .m_name = "base62._base62", .m_size = sizeof(struct state),                   \
        .m_methods = row_calls, .m_slots = (module_slots), .m_traverse = traverse, .m_free = free_module,              \
    }

static struct PyModuleDef since_3_12 = DEFINITION(slots), of_3_11 = DEFINITION(slots + 1);

PyMODINIT_FUNC PyInit__base62(void) { return PyModuleDef_Init(Py_Version >= 0x030c0000 ? &since_3_12 : &of_3_11); }
