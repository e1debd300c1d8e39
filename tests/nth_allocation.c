/* Loaded before the C library, it lets the Nth allocation of a program fail, N being in the environment as FAILING_ALLOCATION, and
   writes how many there were into the file that ALLOCATIONS_TOLD names. tests/growths.py builds and uses it. */
#include <errno.h>
#include <fcntl.h>
#include <stdatomic.h>
#include <stdio.h>
#include <stdlib.h>
#include <sys/syscall.h>
#include <unistd.h>

extern void *__libc_malloc(size_t);
extern void *__libc_calloc(size_t, size_t);
extern void *__libc_realloc(void *, size_t);
extern void *__libc_memalign(size_t, size_t);

static atomic_ulong made;
static unsigned long failing;
static atomic_int begun;

static int is_failing(void) {
    if (!begun || atomic_fetch_add(&made, 1) + 1 != failing)
        return 0;
    errno = ENOMEM;
    return 1;
}

void *malloc(size_t size) { return is_failing() ? NULL : __libc_malloc(size); }
void *calloc(size_t count, size_t size) { return is_failing() ? NULL : __libc_calloc(count, size); }
void *realloc(void *old, size_t size) { return is_failing() ? NULL : __libc_realloc(old, size); }
void *memalign(size_t alignment, size_t size) { return is_failing() ? NULL : __libc_memalign(alignment, size); }
void *aligned_alloc(size_t alignment, size_t size) { return memalign(alignment, size); }

int posix_memalign(void **taken, size_t alignment, size_t size) {
    void *at = memalign(alignment, size);
    if (at == NULL)
        return ENOMEM;
    *taken = at;
    return 0;
}

__attribute__((constructor)) static void begin(void) {
    const char *number = getenv("FAILING_ALLOCATION");
    failing = number ? strtoul(number, NULL, 10) : 0;
    begun = 1;
}

static void tell(void) {
    const char *name = getenv("ALLOCATIONS_TOLD");
    begun = 0;
    int file = name ? open(name, O_WRONLY | O_CREAT | O_TRUNC, 0600) : -1;
    if (file >= 0) {
        dprintf(file, "%lu\n", (unsigned long)made);
        close(file);
    }
}

/* The program ends by this call, after which nothing else of it runs. */
void _exit(int status) {
    tell();
    for (;;)
        syscall(SYS_exit_group, status);
}
