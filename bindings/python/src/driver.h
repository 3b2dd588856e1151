/* Runs the calls of calls.c for numbers. What is no number, such as an array, goes to a function of
 * the package. calls.c has a table of the calls and includes this file.
 *
 * A parameter is a number, a fraction or a date; its numbers are cells. A call has a form for
 * signed numbers, one for unsigned ones, or one form alone. */
#define Py_LIMITED_API 0x03090000
#define PY_SSIZE_T_CLEAN
#include <Python.h>
#include <stdbool.h>
#include <stddef.h>
#include <stdio.h>
#include <string.h>
#include <structmember.h>

#include "cellarcove.h"

/* The stable ABI names this from 3.10 on. It is the same in 3.9. */
#ifndef METH_FASTCALL
#define METH_FASTCALL 0x0080
#endif

enum { MAX_PARAMETERS = 6, MAX_CELLS = 6, MAX_RESULTS = 4 };

/* The number of a cell, or 2**64 or -2**64 for one that is in the range of no type. */
__extension__ typedef __int128 cell;

/* A form of a call. The types of its cells have the letters of `array`. */
typedef struct {
    const char *cells;
    /* the result for the numbers, or NULL and the status */
    PyObject *(*one)(const cell *cells, uint32_t *status);
} form;

/* A call. If it has one form alone, that is both. */
typedef struct call {
    const char *name;
    Py_ssize_t count;
    const char *names[MAX_PARAMETERS];
    const char *shapes;  /* of the parameters: a number, a fraction or the like */
    bool of_numbers;     /* whether each parameter is a number */
    const bool *divides; /* whether the call divides by the number of a cell */
    const form *of_signed, *of_unsigned;
    const struct call *of_parts; /* with a name for each number of a pair, or NULL */
} call;

/* What the package installs. */
static PyObject *refusal, *refusal_of_text, *out_of_range, *call_of_others, *items_of;
static PyObject *add_others, *subtract_others;
static PyObject *new_fraction, *new_decimal, *class_tuple, *names_of_parts[6];
static PyObject *class_date, *class_gcd, *class_solutions, *class_week, *class_weekday;
static PyObject *class_congruence, *class_schedule;
static newfunc new_tuple;

/* The places of the names of an object's parts: of a fraction, a date and a day of the week. */
enum { OF_FRACTION, OF_DATE = 2, OF_WEEKDAY = 5 };

/* ---- errors ---- */

/* Raises an error that the package has made, which is given away. */
static PyObject *raised(PyObject *error) {
    if (error != NULL) {
        PyErr_SetObject((PyObject *)Py_TYPE(error), error);
        Py_DECREF(error);
    }
    return NULL;
}

/* Raises the error for a status. */
static PyObject *refused(uint32_t status, bool by_zero) {
    return raised(
        PyObject_CallFunction(refusal, "IO", (unsigned)status, by_zero ? Py_True : Py_False));
}

/* ---- numbers ---- */

/* Whether an object is an `int`, so that no code runs when it is read. */
static inline bool is_int(PyObject *object) {
    return Py_TYPE(object) == &PyLong_Type || PyLong_Check(object);
}

/* Whether an object is a bool of numpy, whose `__index__` warns. The class of the last one that is
 * none is kept. */
static bool is_bool_of_numpy(PyObject *object) {
    static PyTypeObject *other;
    if (Py_TYPE(object) == other) {
        return false;
    }
    PyObject *text = PyObject_Repr((PyObject *)Py_TYPE(object));
    bool is_one = text != NULL &&
                  (PyUnicode_CompareWithASCIIString(text, "<class 'numpy.bool_'>") == 0 ||
                   PyUnicode_CompareWithASCIIString(text, "<class 'numpy.bool'>") == 0);
    other = is_one ? other : Py_TYPE(object);
    Py_XDECREF(text);
    PyErr_Clear();
    return is_one;
}

/* The integer of an object that is no `int`, or NULL and an error. */
static PyObject *index_of(PyObject *object) {
    return is_bool_of_numpy(object) ? PyNumber_Long(object) : PyNumber_Index(object);
}

/* Reads an integer. It is false after an error. */
static inline bool integer(PyObject *object, cell *to) {
    bool is_read = is_int(object);
    PyObject *number = is_read ? object : index_of(object);
    int overflow;
    if (number == NULL) {
        return false;
    }
    cell found = PyLong_AsLongLongAndOverflow(number, &overflow);
    if (overflow != 0) {
        uint64_t large = overflow > 0 ? PyLong_AsUnsignedLongLong(number) : 0;
        found = overflow < 0 || PyErr_Occurred() ? overflow * ((cell)UINT64_MAX + 1) : large;
        PyErr_Clear();
    }
    if (!is_read) {
        Py_DECREF(number);
    }
    *to = found;
    return true;
}

static inline bool fits(cell number, char kind) {
    return kind == 'q'   ? number == (int64_t)number
           : kind == 'Q' ? number == (uint64_t)number
           : kind == 'I' ? number == (uint32_t)number
           : kind == 'H' ? number == (uint16_t)number
           : kind == 'i' ? number == (int32_t)number
                         : number == (uint8_t)number;
}

/* Whether the number of an object is in the range of a type. If not, it raises. */
static inline bool in_range(PyObject *object, cell number, char kind) {
    return fits(number, kind) ||
           raised(PyObject_CallFunction(out_of_range, "OC", object, (int)kind)) != NULL;
}

/* Reads a number of a type. It is false after an error. */
static bool read_number(PyObject *object, char kind, cell *to) {
    return integer(object, to) && in_range(object, *to, kind);
}

/* ---- results ---- */

/* Fills a tuple with numbers. It is false after an error, and if there is no tuple. */
static bool fill(PyObject *tuple, uint64_t count, const uint64_t *numbers, bool are_signed) {
    bool right = tuple != NULL;
    for (uint64_t k = 0; right && k < count; k++) {
        PyObject *number = are_signed ? PyLong_FromLongLong((int64_t)numbers[k])
                                      : PyLong_FromUnsignedLongLong(numbers[k]);
        right = number != NULL && PyTuple_SetItem(tuple, (Py_ssize_t)k, number) == 0;
    }
    return right;
}

static PyObject *tuple_of(uint64_t count, const uint64_t *numbers, bool are_signed) {
    PyObject *tuple = PyTuple_New((Py_ssize_t)count);
    if (!fill(tuple, count, numbers, are_signed)) {
        Py_CLEAR(tuple);
    }
    return tuple;
}

/* An object of a class whose base is a tuple. The tuple of which the last one was made is filled
 * again, as `zip` does, unless something else has it. */
static PyObject *object_of(PyObject *class, Py_ssize_t count, const uint64_t *numbers,
                           bool are_signed) {
    static PyObject *kept[MAX_RESULTS + 1];
    PyObject *args = kept[count], *result = NULL;
    if (args == NULL || Py_REFCNT(args) > 1 || Py_REFCNT(PyTuple_GetItem(args, 0)) > 1) {
        args = Py_BuildValue("(N)", PyTuple_New(count));
        Py_XDECREF(kept[count]);
        kept[count] = args;
    }
    Py_XINCREF(args);
    if (args != NULL && fill(PyTuple_GetItem(args, 0), (uint64_t)count, numbers, are_signed)) {
        result = new_tuple((PyTypeObject *)class, args, NULL);
    }
    Py_XDECREF(args);
    return result;
}

static PyObject *fraction_of(cellarcove_fraction fraction) {
    PyObject *num = PyLong_FromLongLong(fraction.num), *den = PyLong_FromLongLong(fraction.den);
    bool right = num != NULL && den != NULL;
    PyObject *result = right ? PyObject_CallFunctionObjArgs(new_fraction, num, den, NULL) : NULL;
    Py_XDECREF(num);
    Py_XDECREF(den);
    return result;
}

/* The decimal number of its sign, its integer part, and its digits after the point, which are
 * `places`. If those are 0 there is no digit. */
static PyObject *decimal_of(cellarcove_decimal_answer r, uint32_t places) {
    char text[64];
    snprintf(text, sizeof text, "%s%llu.%.*llu", r.is_negative ? "-" : "",
             (unsigned long long)r.whole, (int)places, (unsigned long long)r.part);
    return PyObject_CallFunction(new_decimal, "s", text);
}

/* ---- dates ---- */

/* A date. The class of dates of the package is below that of `date_spec`. */
typedef struct {
    PyObject_HEAD
    cellarcove_date date;
} date_object;

static PyObject *base_of_dates;

static inline bool is_date(PyObject *object) {
    return PyObject_TypeCheck(object, (PyTypeObject *)base_of_dates);
}

static inline cellarcove_date in(PyObject *date) { return ((date_object *)date)->date; }

static PyObject *date_as(PyTypeObject *class, cellarcove_date date) {
    PyObject *result = PyType_GenericAlloc(class, 0);
    if (result != NULL) {
        ((date_object *)result)->date = date;
    }
    return result;
}

static PyObject *date_of(cellarcove_date date) { return date_as((PyTypeObject *)class_date, date); }

static PyObject *date_new(PyTypeObject *class, PyObject *args, PyObject *named) {
    static char *names[] = {"year", "month", "day", NULL};
    PyObject *parts[3];
    cell year, month, day;
    bool right = named == NULL && PyTuple_Size(args) == 3
                     ? PyArg_UnpackTuple(args, "Date", 3, 3, &parts[0], &parts[1], &parts[2])
                     : PyArg_ParseTupleAndKeywords(args, named, "OOO:Date", names, &parts[0],
                                                   &parts[1], &parts[2]);
    if (!right || !read_number(parts[0], 'q', &year) || !integer(parts[1], &month) ||
        !integer(parts[2], &day)) {
        return NULL;
    }
    cellarcove_date date = {(int64_t)year, (uint8_t)month, (uint8_t)day};
    bool is_there = fits(month, 'B') && fits(day, 'B') &&
                    cellarcove_plus_days(date, 0).status == CELLARCOVE_ANSWER;
    return is_there ? date_as(class, date) : refused(CELLARCOVE_NO_DATE, false);
}

/* The date of an answer, or its error. */
static PyObject *date_or_error(cellarcove_date_answer r) {
    return r.status == CELLARCOVE_ANSWER ? date_of(r.date) : refused(r.status, false);
}

/* Whether an object is an `int` that is a number of days, and no other one. */
static bool is_days(PyObject *object, cell *days) {
    return is_int(object) && integer(object, days) && fits(*days, 'q');
}

/* `date + days` or `days + date`. */
static PyObject *date_add(PyObject *a, PyObject *b) {
    PyObject *date = is_date(a) ? a : b, *other = is_date(a) ? b : a;
    cell days;
    return is_days(other, &days) ? date_or_error(cellarcove_plus_days(in(date), (int64_t)days))
                                 : PyObject_CallFunctionObjArgs(add_others, date, other, NULL);
}

/* `date - date` or `date - days`. */
static PyObject *date_subtract(PyObject *a, PyObject *b) {
    cell days;
    if (is_date(a) && is_days(b, &days)) {
        return date_or_error(cellarcove_minus_days(in(a), (int64_t)days));
    }
    if (!is_date(a) || !is_date(b)) {
        return PyObject_CallFunctionObjArgs(subtract_others, a, b, NULL);
    }
    cellarcove_i64_answer r = cellarcove_days_between(in(b), in(a));
    return r.status == CELLARCOVE_ANSWER ? PyLong_FromLongLong(r.value) : refused(r.status, false);
}

/* The order of dates is that of their years, and then of their days. */
static PyObject *date_compare(PyObject *object, PyObject *other, int operator) {
    if (!is_date(other)) {
        Py_RETURN_NOTIMPLEMENTED;
    }
    cellarcove_date a = in(object), b = in(other);
    int days = (a.month - b.month) * 32 + a.day_of_month - b.day_of_month;
    int order = a.year != b.year ? (a.year < b.year ? -1 : 1) : days;
    Py_RETURN_RICHCOMPARE(order, 0, operator);
}

static Py_hash_t date_hash(PyObject *date) {
    uint64_t days = (uint64_t)in(date).year * 512 + in(date).month * 32U + in(date).day_of_month;
    return (Py_hash_t)days == -1 ? -2 : (Py_hash_t)days;
}

static PyObject *date_text(PyObject *object) {
    cellarcove_date date = in(object);
    char text[64];
    bool is_near = 0 <= date.year && date.year <= 9999;
    snprintf(text, sizeof text, is_near ? "%04lld-%02d-%02d" : "%+05lld-%02d-%02d",
             (long long)date.year, date.month, date.day_of_month);
    return PyUnicode_FromString(text);
}

static PyMemberDef date_members[] = {
    {"year", T_LONGLONG, offsetof(date_object, date.year), READONLY, NULL},
    {"month", T_UBYTE, offsetof(date_object, date.month), READONLY, NULL},
    {"day", T_UBYTE, offsetof(date_object, date.day_of_month), READONLY, NULL},
    {NULL, 0, 0, 0, NULL},
};

static PyType_Slot date_slots[] = {
    {Py_tp_doc, "_BaseDate(year, month, day)\n--\n\n"},
    {Py_tp_members, date_members},
    {Py_tp_new, (void *)date_new},
    {Py_tp_richcompare, (void *)date_compare},
    {Py_tp_hash, (void *)date_hash},
    {Py_tp_str, (void *)date_text},
    {Py_nb_add, (void *)date_add},
    {Py_nb_subtract, (void *)date_subtract},
    {0, NULL},
};

static PyType_Spec date_spec = {"cellarcove._calls._BaseDate", sizeof(date_object), 0,
                                Py_TPFLAGS_DEFAULT | Py_TPFLAGS_BASETYPE, date_slots};

/* ---- calls of numbers ---- */

/* The numbers of a call, and the objects of which they are read, which are owned, or NULL. */
typedef struct {
    PyObject *objects[MAX_CELLS];
    cell cells[MAX_CELLS];
    Py_ssize_t count;
} numbers;

/* Which number does not fit its cell of a form, or the count. */
static inline Py_ssize_t misfit(const form *f, const numbers *found) {
    Py_ssize_t k = 0;
    while (k < found->count && fits(found->cells[k], f->cells[k])) {
        k++;
    }
    return k;
}

/* Runs a call of numbers. If none is negative it is the unsigned form, and the signed one if the
 * result of that does not fit, as a negative one does not. */
static PyObject *run_one(const call *c, const numbers *found) {
    const form *f = c->of_unsigned;
    bool by_zero = false;
    for (Py_ssize_t k = 0; k < found->count; k++) {
        f = found->cells[k] < 0 && c->of_unsigned->cells[k] == 'Q' ? c->of_signed : f;
    }
    Py_ssize_t k = misfit(f, found);
    if (k < found->count && !in_range(found->objects[k], found->cells[k], f->cells[k])) {
        return NULL;
    }
    uint32_t status = 0;
    PyObject *result = f->one(found->cells, &status);
    if (status == CELLARCOVE_NOT_FITTING && f != c->of_signed &&
        misfit(c->of_signed, found) == found->count) {
        status = 0;
        result = c->of_signed->one(found->cells, &status);
    }
    for (k = 0; status != 0 && k < found->count; k++) {
        by_zero |= c->divides[k] && found->cells[k] == 0;
    }
    return status == 0 ? result : refused(status, by_zero);
}

/* How many arguments there are, of which the last ones may have names. */
static Py_ssize_t count_of(Py_ssize_t count, PyObject *names) {
    return count + (names == NULL ? 0 : PyTuple_Size(names));
}

/* Puts the arguments in the order of the parameters, and borrows them. It is false if they are
 * others: then the package says why. */
static bool bind(const call *c, PyObject *const *args, Py_ssize_t count, PyObject *names,
                 PyObject **bound) {
    Py_ssize_t all = count_of(count, names);
    bool right = all == c->count;
    for (Py_ssize_t p = 0; right && p < all; p++) {
        Py_ssize_t k = p < count ? p : count;
        while (p >= count && k < all &&
               PyUnicode_CompareWithASCIIString(PyTuple_GetItem(names, k - count), c->names[p])) {
            k++;
        }
        right = k < all;
        bound[p] = right ? args[k] : NULL;
    }
    return right;
}

/* Adds an integer, which is given away. It is false if it is none, as an array is, which may have
 * `__index__` too, and after an error. */
static bool add(numbers *to, PyObject *object) {
    to->objects[to->count++] = object;
    return object != NULL &&
           (is_int(object) || (PyIndex_Check(object) && !PySequence_Check(object))) &&
           integer(object, &to->cells[to->count - 1]);
}

static bool add_date(numbers *to, cellarcove_date date) {
    const cell cells[3] = {date.year, date.month, date.day_of_month};
    for (int k = 0; k < 3; k++) {
        to->objects[to->count] = NULL;
        to->cells[to->count++] = cells[k];
    }
    return true;
}

/* Adds the integers of a tuple, or of the attributes of another object, whose names are from a
 * place on. It is false if there are none, and perhaps after an error. */
static bool add_parts(numbers *to, PyObject *object, int place, Py_ssize_t count) {
    bool is_tuple = PyTuple_Check(object), right = !is_tuple || PyTuple_Size(object) == count;
    for (Py_ssize_t k = 0; right && k < count; k++) {
        right = add(to, is_tuple ? PySequence_GetItem(object, k)
                                 : PyObject_GetAttr(object, names_of_parts[place + k]));
    }
    return right;
}

/* Adds the numbers of an argument. It is false if it is not made of integers, and perhaps after an
 * error. */
static bool add_argument(numbers *to, PyObject *object, char shape) {
    PyTypeObject *class = (PyTypeObject *)(shape == 'c' ? class_congruence : class_schedule);
    switch (shape) {
    case 'c':
    case 's': return PyObject_TypeCheck(object, class) && add_parts(to, object, 0, 2);
    case 'f': return add_parts(to, object, OF_FRACTION, 2);
    case 'd': return is_date(object) ? add_date(to, in(object)) : add_parts(to, object, OF_DATE, 3);
    default:
        if (shape == 'w' && (PyObject *)Py_TYPE(object) == class_weekday) {
            return add_parts(to, object, OF_WEEKDAY, 1);
        }
        Py_INCREF(object);
        return add(to, object);
    }
}

/* A list of the arguments. */
static PyObject *list_of(PyObject *const *args, Py_ssize_t count) {
    PyObject *objects = PyList_New(count);
    for (Py_ssize_t k = 0; objects != NULL && k < count; k++) {
        Py_INCREF(args[k]);
        PyList_SetItem(objects, k, args[k]);
    }
    return objects;
}

/* The call by the package, which takes names, and what is no number. */
static PyObject *run_others(const call *c, PyObject *const *args, Py_ssize_t count,
                            PyObject *names) {
    return PyObject_CallFunction(call_of_others, "sNO", c->name,
                                 list_of(args, count_of(count, names)),
                                 names == NULL ? Py_None : names);
}

static PyObject *run_objects(const call *c, PyObject *const *args, Py_ssize_t count,
                             PyObject *names) {
    PyObject *bound[MAX_PARAMETERS], *result = NULL;
    numbers found;
    found.count = 0;
    if (c->of_parts != NULL && count < c->count && count_of(count, names) == c->of_parts->count) {
        c = c->of_parts;
    }
    bool right = bind(c, args, count, names, bound);
    for (Py_ssize_t p = 0; right && p < c->count; p++) {
        right = add_argument(&found, bound[p], c->shapes[p]);
    }
    if (right) {
        result = run_one(c, &found);
    } else if (!PyErr_Occurred() || PyErr_ExceptionMatches(PyExc_AttributeError)) {
        PyErr_Clear();
        result = run_others(c, args, count, names);
    }
    while (found.count > 0) {
        Py_XDECREF(found.objects[--found.count]);
    }
    return result;
}

static PyObject *run(const call *c, PyObject *const *args, Py_ssize_t count, PyObject *names) {
    numbers found;
    bool are_ints = c->of_numbers && names == NULL && count == c->count;
    for (found.count = 0; are_ints && found.count < count; found.count++) {
        PyObject *object = found.objects[found.count] = args[found.count];
        are_ints = is_int(object) && integer(object, &found.cells[found.count]);
    }
    return are_ints ? run_one(c, &found) : run_objects(c, args, count, names);
}

/* ---- lists ---- */

/* The items of a list. */
typedef struct {
    uint64_t *copy;  /* those of a list, or NULL */
    PyObject *owner; /* of those that the package has made, or NULL */
    const void *items;
    Py_ssize_t count; /* of the numbers */
    Py_ssize_t width; /* of an item: a number, or a residue and a modulus */
    char kind;        /* `q`, or `Q` */
} list;

/* Room for so many numbers. */
static uint64_t *room_for(uint64_t count) {
    uint64_t *room = count < SIZE_MAX ? PyMem_New(uint64_t, (size_t)count + 1) : NULL;
    return room != NULL ? room : (uint64_t *)PyErr_NoMemory();
}

static void free_list(list *of) {
    PyMem_Free(of->copy);
    Py_XDECREF(of->owner);
}

/* A number of a list: an item, or a part of one that is a congruence, or NULL. */
static inline PyObject *number_at(PyObject *objects, Py_ssize_t place, Py_ssize_t width) {
    if (width == 1) {
        return PyList_GetItem(objects, place);
    }
    PyObject *item = PyList_GetItem(objects, place / width);
    bool right = item != NULL && PyObject_TypeCheck(item, (PyTypeObject *)class_congruence);
    return right ? PyTuple_GetItem(item, place % width) : NULL;
}

/* Copies the integers of a list. They are signed if one is negative and there is a form for signed
 * numbers. It is false after an error, and if an item of a list that others have is no `int`. */
static bool copy_list(PyObject *objects, bool has_signed, list *to) {
    const bool has_owner = to->owner != NULL;
    Py_ssize_t width = to->width, count = PyList_Size(objects) * width, large = count;
    PyMem_Free(to->copy);
    uint64_t *copy = room_for((uint64_t)count);
    to->items = to->copy = copy;
    to->count = count;
    for (Py_ssize_t k = 0; copy != NULL && k < count; k++) {
        PyObject *object = number_at(objects, k, width);
        cell number;
        if (object == NULL || (!has_owner && !is_int(object)) || !integer(object, &number)) {
            return false;
        }
        copy[k] = (uint64_t)number;
        to->kind = has_signed && number < 0 ? 'q' : to->kind;
        large = number > INT64_MAX && large == count ? k : large;
        if (!in_range(object, number, to->kind)) {
            return false;
        }
    }
    return copy != NULL && (to->kind == 'Q' || large == count ||
                            in_range(number_at(objects, large, width), copy[large], 'q'));
}

/* Takes the items of a list. Of what is no list, tuple or iterator the package makes a list, or of
 * an array its bytes and their kind. It is false after an error. */
static bool take_list(const char *name, PyObject *object, bool has_signed, list *to) {
    bool is_list = PyList_Check(object), is_other = PyTuple_Check(object) || PyIter_Check(object);
    if (is_list && copy_list(object, has_signed, to)) {
        return true;
    }
    if (PyErr_Occurred()) {
        return false;
    }
    to->owner = to->width == 1 && (is_list || is_other)
                    ? PySequence_List(object)
                    : PyObject_CallFunction(items_of, "sOnO", name, object, to->width,
                                            has_signed ? Py_True : Py_False);
    if (to->owner == NULL || PyList_Check(to->owner)) {
        return to->owner != NULL && copy_list(to->owner, has_signed, to);
    }
    int kind = 0;
    bool right = PyArg_ParseTuple(to->owner, "y#C", &to->items, &to->count, &kind);
    to->count /= (Py_ssize_t)sizeof *to->copy;
    to->kind = (char)kind;
    return right;
}

/* Whether a call is given as many arguments as it has parameters. If not, it raises. */
static bool has_count(const char *name, Py_ssize_t given, Py_ssize_t count) {
    if (given != count) {
        PyErr_Format(PyExc_TypeError, "%s() takes %zd arguments and was given %zd", name, count,
                     given);
    }
    return given == count;
}

/* Reads the list of a call, and the number that may be beside it. Without one it is NULL. */
static bool read_list(const char *name, PyObject *object, PyObject *number, Py_ssize_t width,
                      bool has_signed, list *to, cell *other) {
    *other = 0;
    if (number != NULL && !integer(number, other)) {
        return false;
    }
    *to = (list){.width = width, .kind = has_signed && *other < 0 ? 'q' : 'Q'};
    bool right = take_list(name, object, has_signed, to) && in_range(number, *other, to->kind);
    if (!right) {
        free_list(to);
    }
    return right;
}

/* The result of a call with a list, which is freed: the object, which is given away, or the error
 * for a status. */
static PyObject *of_list(list *of, uint32_t status, PyObject *result) {
    bool by_zero = false;
    for (Py_ssize_t k = 1; of->width > 1 && k < of->count; k += of->width) {
        by_zero |= ((const uint64_t *)of->items)[k] == 0;
    }
    free_list(of);
    if (status == CELLARCOVE_ANSWER) {
        return result;
    }
    Py_XDECREF(result);
    return refused(status, by_zero && status == CELLARCOVE_BAD_MODULUS);
}

/* A call of two numbers with another count of them: that of a list, or the call by the package. */
static PyObject *of_any_count(const call *c, PyCFunction of, PyObject *const *args,
                              Py_ssize_t count, PyObject *names) {
    bool are_ints = names == NULL;
    for (Py_ssize_t k = 0; are_ints && k < count; k++) {
        are_ints = is_int(args[k]);
    }
    if (!are_ints) {
        return run_others(c, args, count, names);
    }
    PyObject *objects = list_of(args, count), *result = objects == NULL ? NULL : of(NULL, objects);
    Py_XDECREF(objects);
    return result;
}

/* ---- numbers that a call writes ---- */

/* Whether the first number is below the binomial coefficient of the others, which may not fit. */
static bool is_below_binomial(const cell *numbers) {
    cellarcove_u64_answer ways =
        cellarcove_binomial_u64((uint64_t)numbers[1], (uint64_t)numbers[2]);
    return ways.status != CELLARCOVE_ANSWER || numbers[0] < ways.value;
}

/* A tuple of the numbers that a call has written, which are freed, or the error for a status. */
static PyObject *written(uint64_t *numbers, uint64_t count, uint32_t status, bool are_signed) {
    PyObject *result =
        status == CELLARCOVE_ANSWER ? tuple_of(count, numbers, are_signed) : refused(status, false);
    PyMem_Free(numbers);
    return result;
}

typedef uint32_t by_signed(int64_t, const uint64_t *, size_t, int64_t *, size_t);
typedef uint32_t by_unsigned(uint64_t, const uint64_t *, size_t, uint64_t *, size_t);

/* A call that writes a part of a number for each item of a list of weights, or the call by the
 * package, which takes arrays. It has a form for a negative number, or none. */
static PyObject *divided(const call *c, PyObject *const *args, Py_ssize_t given, PyObject *names,
                         by_signed *of_signed, by_unsigned *of_unsigned) {
    PyObject *bound[MAX_PARAMETERS], *result = NULL;
    list of = {.width = 1, .kind = 'Q'};
    cell amount;
    bool right = bind(c, args, given, names, bound) && is_int(bound[0]) && PyList_Check(bound[1]) &&
                 integer(bound[0], &amount) &&
                 fits(amount, amount < 0 && of_signed != NULL ? 'q' : 'Q') &&
                 copy_list(bound[1], false, &of);
    size_t count = (size_t)of.count;
    uint64_t *parts = right ? room_for(count) : NULL;
    if (parts != NULL) {
        uint32_t status;
        Py_BEGIN_ALLOW_THREADS
        status = amount < 0 ? of_signed((int64_t)amount, of.items, count, (int64_t *)parts, count)
                            : of_unsigned((uint64_t)amount, of.items, count, parts, count);
        Py_END_ALLOW_THREADS
        result = written(parts, count, status, amount < 0);
    } else if (!PyErr_Occurred()) {
        result = run_others(c, args, given, names);
    }
    free_list(&of);
    return result;
}

/* ---- texts ---- */

/* The bytes of a text in UTF-8, which are owned. */
static PyObject *bytes_of(const char *name, PyObject *text) {
    return PyUnicode_Check(text) ? PyUnicode_AsUTF8String(text)
                                 : PyErr_Format(PyExc_TypeError, "%s() takes a str", name);
}

/* ---- the module ---- */

/* Says that the calls are taken, if they are: the objects that they keep are those of one life of
 * one interpreter. That one has a mark in its dictionary. */
static bool take_calls(void) {
    static bool taken;
    PyObject *marks = PyInterpreterState_GetDict(PyInterpreterState_Get());
    if (marks == NULL || (taken && PyDict_GetItemString(marks, "cellarcove") == NULL)) {
        PyErr_SetString(PyExc_ImportError,
                        "another interpreter of this process has imported cellarcove");
        return false;
    }
    taken = true;
    return PyDict_SetItemString(marks, "cellarcove", Py_True) == 0;
}

/* Keeps what the package installs, which is the tuple of the arguments. */
static PyObject *install(PyObject *module, PyObject *args) {
    static PyObject *kept;
    (void)module;
    PyObject **names = names_of_parts;
    if (!PyArg_ParseTuple(args, "OOOOOOOOOO(OOOOOO)OOOOOOO", &refusal, &refusal_of_text,
                          &out_of_range, &call_of_others, &items_of, &add_others, &subtract_others,
                          &new_fraction, &new_decimal, &class_tuple, &names[0], &names[1],
                          &names[2], &names[3], &names[4], &names[5], &class_date, &class_gcd,
                          &class_solutions, &class_week, &class_weekday, &class_congruence,
                          &class_schedule)) {
        return NULL;
    }
    void *slot = PyType_GetSlot((PyTypeObject *)class_tuple, Py_tp_new);
    memcpy(&new_tuple, &slot, sizeof slot);
    Py_INCREF(args);
    Py_XDECREF(kept);
    kept = args;
    Py_RETURN_NONE;
}

/* Adds the names of the calls, the version, the compiler of the calls, and the class below that of
 * dates. That one stays when the package is imported again. */
static int prepare(PyObject *module, PyObject *all) {
    if (base_of_dates == NULL) {
        base_of_dates = PyType_FromSpec(&date_spec);
    }
    Py_XINCREF(base_of_dates);
    bool right = take_calls() && all != NULL && base_of_dates != NULL &&
                 PyModule_AddObject(module, "__all__", all) == 0 &&
                 PyModule_AddObject(module, "_BaseDate", base_of_dates) == 0 &&
                 PyModule_AddStringConstant(module, "VERSION", CELLARCOVE_VERSION) == 0 &&
                 PyModule_AddStringConstant(module, "BUILT_BY", cellarcove_built_by()) == 0;
    return right ? 0 : -1;
}
