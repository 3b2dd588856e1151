static PyObject *py_{name}(PyObject *module, PyObject *const *args, Py_ssize_t count, PyObject *names) {
    (void)module;{of_many}
    return run(&call_{name}, args, count, names);
}

