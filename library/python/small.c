/* The extension mcf._small: assignments of small matrices of numpy without the time that ctypes
   takes for a call. It answers only where the search on the matrix has an answer; for everything
   else it returns None, and the module goes on by itself. It calls the library through addresses
   that the module gives to `bind`, so it links with nothing. */
#define Py_LIMITED_API 0x030B0000
#define PY_SSIZE_T_CLEAN
#include <Python.h>
#include <stdint.h>
#include <string.h>
#include "mcf.h"

/* The most rows, and the most columns, of a small matrix: a call takes at most some 0.2 ms, during
   which it holds the interpreter's lock. */
enum { MOST = 50 };

typedef uint32_t assign_matrix(const struct mcf_matrix *, uint32_t *, size_t, int64_t *, size_t,
                               int64_t *, size_t);
typedef uint32_t assign_doubles(const struct mcf_doubles *, uint32_t *, size_t, struct mcf_wide *,
                                size_t, struct mcf_wide *, size_t, struct mcf_scale *);

static assign_matrix *by_whole_numbers;
static assign_doubles *by_doubles;
/* numpy.ndarray, numpy.empty and numpy.intp, once numpy is imported. */
static PyObject *ndarray, *empty, *intp;

/* A copy of a matrix, row after row. */
union entries {
    uint64_t bits[MOST * MOST];
    int64_t whole[MOST * MOST];
    double real[MOST * MOST];
};

/* Finds numpy, if the program has imported it. Where that fails, the module goes on by itself. */
static int has_numpy(void) {
    PyObject *name, *numpy;
    if (intp) return 1;
    name = PyUnicode_FromString("numpy");
    numpy = name ? PyImport_GetModule(name) : NULL;
    Py_XDECREF(name);
    if (numpy && numpy != Py_None) {
        if (!ndarray) ndarray = PyObject_GetAttrString(numpy, "ndarray");
        if (ndarray && !empty) empty = PyObject_GetAttrString(numpy, "empty");
        if (empty) intp = PyObject_GetAttrString(numpy, "intp");
    }
    Py_XDECREF(numpy);
    if (!intp) PyErr_Clear();
    return intp != NULL;
}

/* The bits of a number of 8 bytes, or of the double that a float of 4 bytes is. */
static uint64_t bits_at(const char *from, Py_ssize_t size) {
    uint64_t bits;
    double wide;
    float narrow;
    if (size == 8) {
        memcpy(&bits, from, 8);
    } else {
        memcpy(&narrow, from, 4);
        wide = narrow;
        memcpy(&bits, &wide, 8);
    }
    return bits;
}

/* Copies a matrix, with other signs if `negate`. Returns 0 if one is the whole number that would
   forbid its pair in the library, where it is none. */
static int copy(const Py_buffer *table, int is_real, int negate, union entries *to) {
    const uint64_t sign = (uint64_t)1 << 63;
    size_t place = 0;
    Py_ssize_t i, j;
    for (i = 0; i < table->shape[0]; i++) {
        const char *from = (const char *)table->buf + i * table->strides[0];
        for (j = 0; j < table->shape[1]; j++, from += table->strides[1], place++) {
            uint64_t bits = bits_at(from, table->itemsize);
            if (negate) bits = is_real ? bits ^ sign : 0 - bits;
            if (!is_real && bits == sign - 1) return 0;
            to->bits[place] = bits;
        }
    }
    return 1;
}

/* Finds the column of each row. */
static uint32_t find(const union entries *costs, size_t rows, size_t columns, int is_real,
                     uint32_t *column_of) {
    int64_t row_prices[MOST], column_prices[MOST];
    struct mcf_wide wide_rows[MOST], wide_columns[MOST];
    struct mcf_matrix whole;
    struct mcf_doubles doubles;
    struct mcf_scale scale;
    whole.costs = costs->whole;
    doubles.costs = costs->real;
    whole.length = doubles.length = rows * columns;
    whole.rows = doubles.rows = rows;
    whole.columns = whole.stride = doubles.columns = doubles.stride = columns;
    if (is_real)
        return by_doubles(&doubles, column_of, rows, wide_rows, rows, wide_columns, columns,
                          &scale);
    return by_whole_numbers(&whole, column_of, rows, row_prices, rows, column_prices, columns);
}

/* A new array of numpy with room for so many numbers, which `room` lends. */
static PyObject *array_of(Py_ssize_t length, Py_buffer *room) {
    PyObject *made = PyObject_CallFunction(empty, "nO", length, intp);
    if (!made || PyObject_GetBuffer(made, room, PyBUF_WRITABLE)) {
        Py_CLEAR(made);
    } else if (room->len < length * (Py_ssize_t)sizeof(Py_ssize_t)) {
        PyBuffer_Release(room);
        Py_CLEAR(made);
        PyErr_SetString(PyExc_SystemError, "numpy.empty made too small an array");
    }
    return made;
}

/* The matched rows and their columns, as two arrays. */
static PyObject *pairs(const uint32_t *column_of, size_t rows, size_t columns) {
    Py_ssize_t count = (Py_ssize_t)(rows < columns ? rows : columns), place = 0;
    PyObject *first, *second, *both = NULL;
    Py_buffer to_first, to_second;
    size_t row;
    first = array_of(count, &to_first);
    if (!first) return NULL;
    second = array_of(count, &to_second);
    if (second) {
        for (row = 0; row < rows && place < count; row++) {
            if (column_of[row] >= columns) continue;
            ((Py_ssize_t *)to_first.buf)[place] = (Py_ssize_t)row;
            ((Py_ssize_t *)to_second.buf)[place++] = (Py_ssize_t)column_of[row];
        }
        both = PyTuple_Pack(2, first, second);
        PyBuffer_Release(&to_second);
        Py_DECREF(second);
    }
    PyBuffer_Release(&to_first);
    Py_DECREF(first);
    return both;
}

/* Whether a buffer is a small matrix, and whether it is one of floats. */
static int is_small(const Py_buffer *table, int *is_real) {
    const char *format = table->format ? table->format : "";
    int is_narrow = !strcmp(format, "f") && table->itemsize == 4;
    *is_real = is_narrow || !strcmp(format, "d");
    return table->ndim == 2 && (is_narrow || table->itemsize == 8) &&
           (*is_real || !strcmp(format, "l") || !strcmp(format, "q")) && 0 < table->shape[0] &&
           table->shape[0] <= MOST && 0 < table->shape[1] && table->shape[1] <= MOST;
}

/* assign(matrix, maximize): the matched rows and their columns, or None. */
static PyObject *assign(PyObject *self, PyObject *const *words, Py_ssize_t count) {
    union entries costs;
    uint32_t column_of[MOST];
    PyObject *found = NULL;
    Py_buffer table;
    int negate, is_real;
    (void)self;
    if (count != 2) return PyErr_Format(PyExc_TypeError, "assign takes a matrix and a truth value");
    if (!by_doubles || !has_numpy() || (PyObject *)Py_TYPE(words[0]) != ndarray) goto none;
    negate = PyObject_IsTrue(words[1]);
    if (negate < 0) return NULL;
    if (PyObject_GetBuffer(words[0], &table, PyBUF_FULL_RO)) {
        PyErr_Clear();
        goto none;
    }
    if (is_small(&table, &is_real) && copy(&table, is_real, negate, &costs)) {
        size_t rows = (size_t)table.shape[0], columns = (size_t)table.shape[1];
        if (find(&costs, rows, columns, is_real, column_of) == MCF_FLOW)
            found = pairs(column_of, rows, columns);
    }
    PyBuffer_Release(&table);
    if (found || PyErr_Occurred()) return found;
none:
    if (PyErr_Occurred()) return NULL;
    Py_RETURN_NONE;
}

/* bind(assign_matrix, assign_doubles): takes the addresses of two functions of the library. */
static PyObject *bind(PyObject *self, PyObject *words) {
    PyObject *whole, *doubles;
    (void)self;
    if (!PyArg_ParseTuple(words, "OO", &whole, &doubles)) return NULL;
    *(void **)&by_whole_numbers = PyLong_AsVoidPtr(whole);
    *(void **)&by_doubles = PyLong_AsVoidPtr(doubles);
    if (PyErr_Occurred()) return NULL;
    Py_RETURN_NONE;
}

static PyMethodDef methods[] = {
    {"assign", (PyCFunction)(void (*)(void))assign, METH_FASTCALL,
     "The matched rows of a small matrix and their columns, or None."},
    {"bind", bind, METH_VARARGS, "Takes the addresses of two functions of the library."},
    {NULL, NULL, 0, NULL}};

static struct PyModuleDef module = {
    PyModuleDef_HEAD_INIT, "_small", NULL, -1, methods, NULL, NULL, NULL, NULL};

PyMODINIT_FUNC PyInit__small(void) { return PyModule_Create(&module); }
