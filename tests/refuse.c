/* Refuses one allocation of a program: the one whose number, counted from 1, stands in REFUSE_AT. Loaded before the C library
   (LD_PRELOAD). How many there were goes to the file that REFUSE_COUNT names. */
#include <errno.h>
#include <fcntl.h>
#include <stdio.h>
#include <stdlib.h>
#include <unistd.h>

void *__libc_malloc(size_t size);
void *__libc_calloc(size_t count, size_t size);
void *__libc_realloc(void *block, size_t size);
void *__libc_memalign(size_t alignment, size_t size);

static unsigned long count;

static int is_refused(void) {
    static unsigned long at;
    static int is_known;
    if (!is_known) {
        const char *text = getenv("REFUSE_AT");
        at = text ? strtoul(text, NULL, 10) : 0;
        is_known = 1;
    }
    count++;
    if (count == at) {
        errno = ENOMEM;
        return 1;
    }
    return 0;
}

void *malloc(size_t size) { return is_refused() ? NULL : __libc_malloc(size); }

void *calloc(size_t number, size_t size) { return is_refused() ? NULL : __libc_calloc(number, size); }

void *realloc(void *block, size_t size) { return is_refused() ? NULL : __libc_realloc(block, size); }

void *aligned_alloc(size_t alignment, size_t size) { return is_refused() ? NULL : __libc_memalign(alignment, size); }

int posix_memalign(void **block, size_t alignment, size_t size) {
    void *found = is_refused() ? NULL : __libc_memalign(alignment, size);
    if (found == NULL)
        return ENOMEM;
    *block = found;
    return 0;
}

__attribute__((destructor)) static void tell(void) {
    const char *name = getenv("REFUSE_COUNT");
    char text[32];
    int file = name ? open(name, O_WRONLY | O_CREAT | O_TRUNC, 0600) : -1;
    if (file >= 0) {
        int length = snprintf(text, sizeof text, "%lu\n", count);
        if (write(file, text, (size_t)length) != length)
            _exit(99);
        close(file);
    }
}
