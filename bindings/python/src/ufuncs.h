/* Makes the ufuncs of ufuncs.c, which has their loops and a table of them and includes this file.
 * numpy gives a loop aligned numbers of its types, so many bytes apart. */
#define Py_LIMITED_API 0x03090000
#define NPY_NO_DEPRECATED_API NPY_1_7_API_VERSION
#define NO_IMPORT_ARRAY
#include <Python.h>
#include <stdbool.h>
#include <stdint.h>
#include <stdlib.h>
#include <string.h>

#include <numpy/ndarraytypes.h>
#include <numpy/ufuncobject.h>

#include "cellarcove.h"

/* Where the numbers of an argument or of a result lie. */
#define PLACE(n)                                                                                   \
    char *const at##n = args[n];                                                                   \
    const npy_intp step##n = steps[n];

/* Where the statuses lie: all at one place, which nothing reads, if the ufunc returns none. */
#define STATUSES(n)                                                                                \
    char unread, *const at##n = data == NULL ? &unread : args[n];                                  \
    const npy_intp step##n = data == NULL ? 0 : steps[n];

/* The number of a call at a place. */
#define AT(type, n) (*(type *)(void *)(at##n + k * step##n))

/* How many numbers are divided by one at a time. */
#define BLOCK 512

typedef struct {
    const char *name, *signature;
    PyUFuncGenericFunction *loops;
    void **data;
    const char *types;
    int forms, taken, returned;
} ufunc;

/* The data of the loops of a ufunc that returns the statuses, and of one that counts the failures
 * alone. */
static void *returns_statuses[2] = {returns_statuses, returns_statuses}, *counts_failures[2];

/* How many loops of this thread had an element without a result. */
static _Thread_local unsigned long long failures;

static PyObject *count_of_failures(PyObject *module, PyObject *none) {
    (void)module, (void)none;
    return PyLong_FromUnsignedLongLong(failures);
}

static PyMethodDef methods[] = {
    {"failures", count_of_failures, METH_NOARGS, NULL},
    {NULL, NULL, 0, NULL},
};

/* Room for so many numbers. Without it a loop sets the error that numpy raises. */
static uint64_t *room_for(size_t count) {
    uint64_t *room = count < SIZE_MAX / sizeof *room ? malloc((count + 1) * sizeof *room) : NULL;
    if (room == NULL) {
        NPY_ALLOW_C_API_DEF
        NPY_ALLOW_C_API
        PyErr_NoMemory();
        NPY_DISABLE_C_API
    }
    return room;
}

/* Numbers that lie so many bytes apart, side by side: as they are, or copied into the room. */
static void *gather(uint64_t *room, char *from, npy_intp step, size_t count) {
    for (size_t k = 0; step != sizeof *room && k < count; k++, from += step) {
        memcpy(&room[k], from, sizeof *room);
    }
    return step == sizeof *room ? (void *)from : room;
}

/* Copies numbers to where they lie so many bytes apart, or zeros. */
static void scatter(const uint64_t *from, char *to, npy_intp step, size_t count) {
    static const uint64_t zero = 0;
    for (size_t k = 0; k < count; k++, to += step) {
        memcpy(to, from == NULL ? &zero : &from[k], sizeof zero);
    }
}

/* Whether so many numbers at two places share no byte. */
static bool apart(const void *one, const void *other, size_t count) {
    uintptr_t first = (uintptr_t)one, second = (uintptr_t)other;
    return first + count * sizeof(uint64_t) <= second || second + count * sizeof(uint64_t) <= first;
}

/* Adds the ufuncs to the module. They keep what a table points to. */
static int add_ufuncs(PyObject *module, const ufunc *made, size_t count) {
    if (_import_umath() < 0) {
        return -1;
    }
    for (size_t k = 0; k < count; k++) {
        const ufunc *u = &made[k];
        PyObject *object = PyUFunc_FromFuncAndDataAndSignature(
            u->loops, u->data, (char *)(uintptr_t)u->types, u->forms, u->taken, u->returned,
            PyUFunc_None, u->name, NULL, 0, u->signature);
        if (object == NULL || PyModule_AddObject(module, u->name, object) != 0) {
            Py_XDECREF(object);
            return -1;
        }
    }
    return 0;
}
