/* What the tests share: expect, and guarded memory, which lies between two areas that cannot be accessed. */
#include <stddef.h>
#include <stdio.h>
#include <stdlib.h>

#ifdef _WIN32
#include <windows.h>
#else
#include <sys/mman.h>
#endif

/* A multiple of each page size. */
enum { GUARDED = 65536 };

/* Ends the test if this does not hold. */
static inline void expect(int holds, const char *what) {
    if (!holds) {
        fprintf(stderr, "%s\n", what);
        exit(1);
    }
}

/* Returns GUARDED bytes of guarded memory. */
static inline char *map_guarded(void) {
#ifdef _WIN32
    char *area = VirtualAlloc(NULL, 3 * GUARDED, MEM_RESERVE, PAGE_NOACCESS);
    expect(area != NULL, "VirtualAlloc");
    expect(VirtualAlloc(area + GUARDED, GUARDED, MEM_COMMIT, PAGE_READWRITE) != NULL, "VirtualAlloc");
#else
    char *area = mmap(NULL, 3 * GUARDED, PROT_NONE, MAP_PRIVATE | MAP_ANONYMOUS, -1, 0);
    expect(area != MAP_FAILED, "mmap");
    expect(mprotect(area + GUARDED, GUARDED, PROT_READ | PROT_WRITE) == 0, "mprotect");
#endif
    return area + GUARDED;
}

static inline void set_read_only(char *memory) {
#ifdef _WIN32
    DWORD before;
    expect(VirtualProtect(memory, GUARDED, PAGE_READONLY, &before) != 0, "VirtualProtect");
#else
    expect(mprotect(memory, GUARDED, PROT_READ) == 0, "mprotect");
#endif
}

/* Returns the first or the last bytes of guarded memory. */
static inline char *place_in(char *memory, int at_end, size_t length) {
    return at_end ? memory + GUARDED - length : memory;
}
