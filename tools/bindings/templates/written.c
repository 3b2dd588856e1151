static PyObject *py_{name}(PyObject *module, {taken}) {
    (void)module;
    cell numbers[{count}];
    if ({read}) {
        return NULL;
    }
    if (!{asked}) {
        return refused(CELLARCOVE_OUTSIDE, false);
    }
    uint64_t *room = room_for((uint64_t)numbers[{last}]);
    if (room == NULL) {
        return NULL;
    }
    uint32_t status;
    Py_BEGIN_ALLOW_THREADS
    status = {symbol}({passed}, room, (size_t)numbers[{last}]);
    Py_END_ALLOW_THREADS
    return written(room, (uint64_t)numbers[{last}], status, false);
}

