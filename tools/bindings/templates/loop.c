static void loop_{name}(char **args, npy_intp const *dimensions, npy_intp const *steps, void *data) {
    const npy_intp count = dimensions[0];
{opening}
    for (; k < count; k++) {
        {type} r = {symbol}({taken});
{stores}
    }
{closing}
}

