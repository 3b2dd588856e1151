// Refuses one request for memory: the one whose number REFUSED_REQUEST says. tools/gate/check_program.sh places these functions
// before those of the C library. The program has all its memory from malloc and realloc.
#include <errno.h>
#include <stdlib.h>

void *__libc_malloc(size_t size);
void *__libc_realloc(void *old, size_t size);

static int is_refused(void) {
    static unsigned long made;
    const char *refused = getenv("REFUSED_REQUEST");
    made += 1;
    if (!refused || made != strtoul(refused, NULL, 10))
        return 0;
    errno = ENOMEM;
    return 1;
}

void *malloc(size_t size) { return is_refused() ? NULL : __libc_malloc(size); }

void *realloc(void *old, size_t size) { return is_refused() ? NULL : __libc_realloc(old, size); }
