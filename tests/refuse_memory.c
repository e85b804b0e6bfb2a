/* A preloaded library that refuses requests for memory, to sweep a built program from outside.
 *
 * REFUSE_FROM=N     the number, from 1, of the first request that is refused; 0 or unset: none
 * REFUSE_COUNT=M    how many are refused from there on; unset: every one
 * REFUSE_REPORT=F   at the end of the program one line is written to the file F: the requests asked
 *                   and the requests refused
 *
 * Counting and refusing begin with this library's constructor: what the loader asks before it is
 * neither counted nor refused, what it and the C library ask between it and `main` is both.
 */
#define _GNU_SOURCE
#include <errno.h>
#include <fcntl.h>
#include <stdatomic.h>
#include <stddef.h>
#include <stdio.h>
#include <stdlib.h>
#include <string.h>
#include <sys/syscall.h>
#include <unistd.h>

extern void *__libc_malloc(size_t size);
extern void *__libc_calloc(size_t count, size_t size);
extern void *__libc_realloc(void *block, size_t size);
extern void *__libc_memalign(size_t alignment, size_t size);

static atomic_ulong asked;
static atomic_ulong refused;
static unsigned long first_refused;
static unsigned long refusals;
static int is_counting;

static unsigned long number_in(const char *name, unsigned long otherwise) {
    const char *text = getenv(name);
    return text == NULL || *text == 0 ? otherwise : strtoul(text, NULL, 10);
}

__attribute__((constructor)) static void start_counting(void) {
    first_refused = number_in("REFUSE_FROM", 0);
    refusals = number_in("REFUSE_COUNT", (unsigned long)-1);
    is_counting = 1;
}

static int is_refused(void) {
    if (!is_counting) {
        return 0;
    }
    unsigned long request = atomic_fetch_add(&asked, 1) + 1;
    if (first_refused == 0 || request < first_refused || request - first_refused >= refusals) {
        return 0;
    }
    atomic_fetch_add(&refused, 1);
    errno = ENOMEM;
    return 1;
}

__attribute__((destructor)) static void report(void) {
    if (!is_counting) {
        return;
    }
    is_counting = 0;
    const char *path = getenv("REFUSE_REPORT");
    if (path == NULL) {
        return;
    }
    char line[64];
    int length = snprintf(line, sizeof line, "%lu %lu\n", atomic_load(&asked), atomic_load(&refused));
    int file = open(path, O_WRONLY | O_CREAT | O_TRUNC, 0644);
    if (file >= 0) {
        ssize_t written = write(file, line, (size_t)length);
        (void)written;
        close(file);
    }
}

/* A program that has had threads ends here, without its destructors. */
void _exit(int status) {
    report();
    for (;;) {
        syscall(SYS_exit_group, status);
    }
}

void *malloc(size_t size) { return is_refused() ? NULL : __libc_malloc(size); }

void *calloc(size_t count, size_t size) { return is_refused() ? NULL : __libc_calloc(count, size); }

void *realloc(void *block, size_t size) { return is_refused() ? NULL : __libc_realloc(block, size); }

void *memalign(size_t alignment, size_t size) {
    return is_refused() ? NULL : __libc_memalign(alignment, size);
}

void *aligned_alloc(size_t alignment, size_t size) {
    return is_refused() ? NULL : __libc_memalign(alignment, size);
}

int posix_memalign(void **place, size_t alignment, size_t size) {
    void *block = is_refused() ? NULL : __libc_memalign(alignment, size);
    if (block == NULL) {
        return ENOMEM;
    }
    *place = block;
    return 0;
}
