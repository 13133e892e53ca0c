/* Makes one allocation of a program fail: the one whose number, from 1, is in FAIL_ALLOC. When it comes to it, it writes
   a byte to the file descriptor in FAIL_TOLD. It is loaded before the C library (glibc), in the place of whose calls these stand. */
#include <errno.h>
#include <stdlib.h>
#include <unistd.h>

extern void *__libc_malloc(size_t size);
extern void *__libc_calloc(size_t count, size_t size);
extern void *__libc_realloc(void *block, size_t size);

static long left;
static int told;

__attribute__((constructor)) static void begin(void) {
    const char *number = getenv("FAIL_ALLOC"), *descriptor = getenv("FAIL_TOLD");
    if (number != NULL && descriptor != NULL) {
        told = atoi(descriptor);
        left = atol(number);
    }
}

static int fails(void) {
    if (left == 0 || --left != 0) {
        return 0;
    }
    if (write(told, "x", 1) != 1) {
        abort();
    }
    errno = ENOMEM;
    return 1;
}

void *malloc(size_t size) {
    return fails() ? NULL : __libc_malloc(size);
}

void *calloc(size_t count, size_t size) {
    return fails() ? NULL : __libc_calloc(count, size);
}

void *realloc(void *block, size_t size) {
    return fails() ? NULL : __libc_realloc(block, size);
}
