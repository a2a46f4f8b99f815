/* Counts the bytes of the blocks that a program has taken and not given back, and writes into the file that HELD_BYTES names how many they are where the program's standard input ends. Loaded before the
   C library (LD_PRELOAD). */
#include <errno.h>
#include <fcntl.h>
#include <malloc.h>
#include <stdint.h>
#include <stdio.h>
#include <stdlib.h>
#include <sys/syscall.h>
#include <unistd.h>

void *__libc_malloc(size_t size);
void *__libc_calloc(size_t count, size_t size);
void *__libc_realloc(void *block, size_t size);
void *__libc_memalign(size_t alignment, size_t size);
void __libc_free(void *block);

static int64_t held;

static void *taken(void *block) {
    if (block)
        held += (int64_t)malloc_usable_size(block);
    return block;
}

void *malloc(size_t size) { return taken(__libc_malloc(size)); }

void *calloc(size_t number, size_t size) { return taken(__libc_calloc(number, size)); }

void *realloc(void *block, size_t size) {
    int64_t before = block ? (int64_t)malloc_usable_size(block) : 0;
    void *found = __libc_realloc(block, size);
    if (found || size == 0)
        held -= before;
    return taken(found);
}

void *aligned_alloc(size_t alignment, size_t size) { return taken(__libc_memalign(alignment, size)); }

int posix_memalign(void **block, size_t alignment, size_t size) {
    void *found = taken(__libc_memalign(alignment, size));
    if (!found)
        return ENOMEM;
    *block = found;
    return 0;
}

void free(void *block) {
    if (block)
        held -= (int64_t)malloc_usable_size(block);
    __libc_free(block);
}

static void tell(void) {
    const char *name = getenv("HELD_BYTES");
    char text[32];
    int length = snprintf(text, sizeof text, "%lld\n", (long long)held);
    int file = name ? open(name, O_WRONLY | O_CREAT | O_TRUNC, 0600) : -1;
    if (file < 0 || write(file, text, (size_t)length) != length)
        _exit(99);
    close(file);
}

ssize_t read(int file, void *bytes, size_t size) {
    ssize_t count = syscall(SYS_read, file, bytes, size);
    if (file == STDIN_FILENO && count == 0)
        tell();
    return count;
}
