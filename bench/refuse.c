/* What the program asks of the machine fails once: the allocation, the receive or the send whose number, from 1, the variables REFUSE,
   FAIL_RECEIVE and FAIL_SEND have. Where SHORT_SEND is set each send takes one byte. */
#define _GNU_SOURCE
#include <dlfcn.h>
#include <errno.h>
#include <stdatomic.h>
#include <stdlib.h>
#include <string.h>
#include <sys/types.h>

struct Plan {
    long due; /* 0: never; -1: the variables aren't read yet */
    _Atomic long asked;
};

static struct Plan allocations = {-1, 0}, receives = {-1, 0}, sends = {-1, 0};
static int takes_one_byte;
static void *(*next_malloc)(size_t);
static void *(*next_realloc)(void *, size_t);
static void *(*next_aligned)(size_t, size_t);
static int (*next_memalign)(void **, size_t, size_t);
static void *(*next_calloc)(size_t, size_t);
static ssize_t (*next_recv)(int, void *, size_t, int);
static ssize_t (*next_send)(int, const void *, size_t, int);
static char early[4096];
static size_t early_used;

static void begin_plan(struct Plan *plan, const char *name) {
    const char *text = getenv(name);
    atomic_store(&plan->asked, 0);
    plan->due = text ? atol(text) : 0;
}

__attribute__((constructor)) static void begin(void) {
    next_malloc = dlsym(RTLD_NEXT, "malloc");
    next_realloc = dlsym(RTLD_NEXT, "realloc");
    next_aligned = dlsym(RTLD_NEXT, "aligned_alloc");
    next_memalign = dlsym(RTLD_NEXT, "posix_memalign");
    next_calloc = dlsym(RTLD_NEXT, "calloc");
    next_recv = dlsym(RTLD_NEXT, "recv");
    next_send = dlsym(RTLD_NEXT, "send");
    takes_one_byte = getenv("SHORT_SEND") != NULL;
    begin_plan(&receives, "FAIL_RECEIVE");
    begin_plan(&sends, "FAIL_SEND");
    begin_plan(&allocations, "REFUSE");
}

static int is_due(struct Plan *plan) {
    return plan->due >= 0 && atomic_fetch_add(&plan->asked, 1) + 1 == plan->due;
}

void *malloc(size_t size) {
    if (is_due(&allocations)) { errno = ENOMEM; return NULL; }
    if (!next_malloc) next_malloc = dlsym(RTLD_NEXT, "malloc");
    return next_malloc(size);
}

void *calloc(size_t count, size_t size) {
    if (!next_calloc) { void *at = early + early_used; early_used += (count * size + 15) & ~(size_t)15; return at; }
    if (is_due(&allocations)) { errno = ENOMEM; return NULL; }
    return next_calloc(count, size);
}

void *realloc(void *old, size_t size) {
    if (is_due(&allocations)) { errno = ENOMEM; return NULL; }
    if (!next_realloc) next_realloc = dlsym(RTLD_NEXT, "realloc");
    return next_realloc(old, size);
}

void *aligned_alloc(size_t align, size_t size) {
    if (is_due(&allocations)) { errno = ENOMEM; return NULL; }
    return next_aligned(align, size);
}

int posix_memalign(void **to, size_t align, size_t size) {
    if (is_due(&allocations)) return ENOMEM;
    return next_memalign(to, align, size);
}

ssize_t recv(int socket, void *to, size_t size, int flags) {
    if (is_due(&receives)) { errno = EIO; return -1; }
    return next_recv(socket, to, size, flags);
}

ssize_t send(int socket, const void *from, size_t size, int flags) {
    if (is_due(&sends)) { errno = EIO; return -1; }
    return next_send(socket, from, takes_one_byte && size > 1 ? 1 : size, flags);
}
