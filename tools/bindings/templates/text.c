static PyObject *py_{name}(PyObject *module, PyObject *object) {
    (void)module;
    PyObject *bytes = bytes_of("{name}", object);
    if (bytes == NULL) {
        return NULL;
    }
    {kind} r = {symbol}(PyBytes_AsString(bytes), (size_t)PyBytes_Size(bytes));
    Py_DECREF(bytes);
    return r.status == CELLARCOVE_ANSWER ? {result} : raised(PyObject_CallFunction(refusal_of_text, "I", (unsigned)r.status));
}

