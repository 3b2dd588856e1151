
    uint64_t one[BLOCK], other[BLOCK], written[BLOCK];
    const bool marks_all = data == NULL || step3 == 1;
    for (npy_intp size; marks_all && k < count; k += size) {
        size = count - k < BLOCK ? count - k : BLOCK;
        void *a = step0 == 0 && k > 0 ? one : gather(one, &AT(char, 0), step0, (size_t)size);
        void *b = step1 == 0 && k > 0 ? other : gather(other, &AT(char, 1), step1, (size_t)size);
        const bool is_free = step2 == sizeof *written && apart(a, &AT(char, 2), (size_t)size) && apart(b, &AT(char, 2), (size_t)size);
        void *found = is_free ? (void *)&AT(char, 2) : written;
        if ({symbol}(a, (size_t)size, b, (size_t)size, found, (size_t)size) != CELLARCOVE_ANSWER) {
            break;
        }
        if (!is_free) {
            scatter(written, &AT(char, 2), step2, (size_t)size);
        }
        memset(&AT(char, 3), CELLARCOVE_ANSWER, data == NULL ? 0 : (size_t)size);
    }
