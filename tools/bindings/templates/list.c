static PyObject *py_{name}(PyObject *module, {taken}) {
    (void)module;
    list of;
    cell other;
    if ({counted}!read_list("{name}", {given}, {width}, {has_signed}, &of, &other)) {
        return NULL;
    }{signed}
    {
{unsigned}
    }
}

