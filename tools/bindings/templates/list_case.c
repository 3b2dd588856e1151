        {type} r;
        Py_BEGIN_ALLOW_THREADS
        r = {symbol}({passed});
        Py_END_ALLOW_THREADS
        return of_list(&of, r.status, {object}(r.value));
