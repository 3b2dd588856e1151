static PyObject *one_{name}(const cell *a, uint32_t *status) {
    {type} r = {symbol}({taken});
{refused}
    return {object};
}

static const form form_{name} = {"{cells}", one_{name}};

