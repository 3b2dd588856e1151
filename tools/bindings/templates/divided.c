static const call call_{name} = {"{name}", 2, {{names}}, "nl", false, NULL, NULL, NULL, NULL};

static PyObject *py_{name}(PyObject *module, PyObject *const *args, Py_ssize_t given, PyObject *names) {
    (void)module;
    return divided(&call_{name}, args, given, names, {signed}, {unsigned});
}

