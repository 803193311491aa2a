/* Loaded before a program (LD_PRELOAD), it refuses memory: the call of malloc, realloc or calloc by the number SWAP_REFUSE,
   from 1, answers NULL, and with SWAP_REFUSE_ON each further one too. A byte on the descriptor SWAP_REFUSE_MARK tells that one
   was refused. The other calls go to the C library (glibc), which exports its own functions under a second name. */
#include <errno.h>
#include <stdatomic.h>
#include <stdlib.h>
#include <unistd.h>

extern void *__libc_malloc(size_t size);
extern void *__libc_realloc(void *old, size_t size);
extern void *__libc_calloc(size_t count, size_t size);

static atomic_ulong calls;

static unsigned long number(const char *name) {
    const char *text = getenv(name);
    return text ? strtoul(text, NULL, 10) : 0;
}

static int is_refused(void) {
    unsigned long call = atomic_fetch_add(&calls, 1) + 1;
    unsigned long first = number("SWAP_REFUSE");
    if (first == 0 || call < first || (call > first && !getenv("SWAP_REFUSE_ON")))
        return 0;
    if (call == first && write((int)number("SWAP_REFUSE_MARK"), "!", 1) != 1)
        abort();
    errno = ENOMEM;
    return 1;
}

void *malloc(size_t size) { return is_refused() ? NULL : __libc_malloc(size); }

void *realloc(void *old, size_t size) { return is_refused() ? NULL : __libc_realloc(old, size); }

void *calloc(size_t count, size_t size) { return is_refused() ? NULL : __libc_calloc(count, size); }
