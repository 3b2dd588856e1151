
    if (count != 2) {
        return of_any_count(&call_{name}, py_{name}_of, args, count, names);
    }
