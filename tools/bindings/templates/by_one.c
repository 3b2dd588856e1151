
    uint64_t read[BLOCK], written[BLOCK];
    const bool is_one = step1 == 0 && (data == NULL || step3 == 1);
    const bool whole = step0 == sizeof *read && step2 == sizeof *written && apart(at0, at2, (size_t)count);
    for (npy_intp most = whole ? count : BLOCK, size; is_one && k < count; k += size) {
        size = count - k < most ? count - k : most;
        void *numbers = gather(read, &AT(char, 0), step0, (size_t)size);
        void *found = step2 == sizeof *written && apart(numbers, &AT(char, 2), (size_t)size) ? (void *)&AT(char, 2) : written;
        if ({symbol}(numbers, (size_t)size, AT(const {type}, 1), found, (size_t)size) != CELLARCOVE_ANSWER) {
            break;
        }
        if (found == written) {
            scatter(written, &AT(char, 2), step2, (size_t)size);
        }
        memset(&AT(char, 3), CELLARCOVE_ANSWER, data == NULL ? 0 : (size_t)size);
    }
