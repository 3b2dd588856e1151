static void loop_{name}(char **args, npy_intp const *dimensions, npy_intp const *steps, void *data) {
    (void)data;
    PLACE(0) PLACE(1) PLACE(2) PLACE(3)
    size_t count = (size_t)dimensions[1];
    uint64_t *weights = room_for(2 * count), *parts = weights + count;
    for (npy_intp k = 0; weights != NULL && k < dimensions[0]; k++) {
        void *given = gather(weights, &AT(char, 1), steps[4], count);
        uint32_t status = {symbol}(AT({type}, 0), given, count, ({type} *)parts, count);
        scatter(status == CELLARCOVE_ANSWER ? parts : NULL, &AT(char, 2), steps[5], count);
        AT(uint8_t, 3) = (uint8_t)status;
    }
    free(weights);
}

