// Preloaded into a program, this fails one of its calls: the one whose number, from 1 on, is in REFUSED. FAILING names
// what it counts: allocations, unless it is read or write.
#include <errno.h>
#include <stdlib.h>
#include <sys/syscall.h>
#include <unistd.h>

void *__libc_malloc(size_t size);
void *__libc_realloc(void *memory, size_t size);

static long left;
static char counted = 'a';

__attribute__((constructor)) static void begin(void) {
    const char *number = getenv("REFUSED"), *name = getenv("FAILING");
    left = number ? atol(number) : 0;
    counted = name ? *name : 'a';
}

static int fails(char call) { return call == counted && left > 0 && --left == 0; }

void *malloc(size_t size) { return fails('a') ? NULL : __libc_malloc(size); }

void *realloc(void *memory, size_t size) { return fails('a') ? NULL : __libc_realloc(memory, size); }

ssize_t read(int file, void *bytes, size_t count) {
    errno = EIO;
    return fails('r') ? -1 : syscall(SYS_read, file, bytes, count);
}

ssize_t write(int file, const void *bytes, size_t count) {
    errno = EIO;
    return fails('w') ? -1 : syscall(SYS_write, file, bytes, count);
}
