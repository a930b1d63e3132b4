/* Refuses requests for memory, or one thread, of the program that it is preloaded into.
 *
 * REFUSE=N           the N-th request for memory after the start is refused, counted from 1; 0 refuses none
 * REFUSE_FROM=N      so are the N-th one and all after it; 0 refuses none
 * REFUSE_THREAD=N    the N-th thread is not started, counted from 1; 0 refuses none
 * REFUSE_STARTS=PLACE,..  where the program asks for what a thread starts with, as a run before told it
 * REFUSE_REPORT=FILE numbers are written there at the end: of requests for memory, of threads that were to start, of
 *                    refused requests, of those that were for the start of a thread, and then those places
 *
 * The start of a thread asks for memory twice: before pthread_create, where the place in the program tells it, and
 * within. There are several such places where a compiler copies the code that starts a thread.
 */
#define _GNU_SOURCE
#include <dlfcn.h>
#include <errno.h>
#include <fcntl.h>
#include <link.h>
#include <pthread.h>
#include <stdint.h>
#include <stdio.h>
#include <stdlib.h>
#include <sys/syscall.h>
#include <unistd.h>

extern void *__libc_malloc(size_t);
extern void *__libc_calloc(size_t, size_t);
extern void *__libc_realloc(void *, size_t);
extern void *__libc_memalign(size_t, size_t);

typedef int start_thread(pthread_t *, const pthread_attr_t *, void *(*)(void *), void *);

/* More such places than this would be told as a wrong outcome, and not passed over. */
#define MAX_STARTS 256

static unsigned long asked, refused_at, refused_from, threads, no_thread_at, refused, starts_refused;
static uintptr_t base, starts[MAX_STARTS], seen[MAX_STARTS];
static start_thread *create;
static int counting;
static const char *report;

/* Of the thread that runs: the place of its last request, and whether it is within pthread_create. */
#define OF_THREAD static __thread __attribute__((tls_model("initial-exec")))
OF_THREAD uintptr_t last;
OF_THREAD int starting;

static unsigned long number(const char *name) {
    const char *nth = getenv(name);
    return nth ? strtoul(nth, NULL, 10) : 0;
}

/* Whether the place is in the list, which ends with 0. */
static int is_in(uintptr_t *list, uintptr_t place) {
    for (int at = 0; at < MAX_STARTS && list[at]; at++)
        if (list[at] == place) return 1;
    return 0;
}

/* Adds a place to the list, where it has room. Threads that start others do so one at a time. */
static void add(uintptr_t *list, uintptr_t place) {
    for (int at = 0; place && at < MAX_STARTS && list[at] != place; at++)
        if (!list[at]) {
            list[at] = place;
            return;
        }
}

static void read_starts(const char *given) {
    while (given && *given) {
        char *end;
        add(starts, strtoul(given, &end, 10));
        given = *end ? end + 1 : end;
    }
}

static int note_base(struct dl_phdr_info *program, size_t size, void *unused) {
    (void)size, (void)unused;
    base = program->dlpi_addr;
    return 1;
}

__attribute__((constructor)) static void begin(void) {
    refused_at = number("REFUSE");
    refused_from = number("REFUSE_FROM");
    no_thread_at = number("REFUSE_THREAD");
    read_starts(getenv("REFUSE_STARTS"));
    report = getenv("REFUSE_REPORT");
    create = (start_thread *)dlsym(RTLD_NEXT, "pthread_create");
    dl_iterate_phdr(note_base, NULL);
    counting = 1;
}

__attribute__((destructor)) static void stop(void) {
    counting = 0;
    if (!report) return;
    int to = open(report, O_WRONLY | O_CREAT | O_TRUNC, 0644);
    if (to < 0) return;
    dprintf(to, "%lu %lu %lu %lu", asked, threads, refused, starts_refused);
    for (int at = 0; at < MAX_STARTS && seen[at]; at++) dprintf(to, " %lu", (unsigned long)seen[at]);
    dprintf(to, "\n");
    close(to);
}

/* A program with threads ends by this, without its destructors. */
void _exit(int status) {
    if (counting) stop();
    for (;;) syscall(SYS_exit_group, status);
}

static int is_refused(const void *called_from) {
    if (!counting) return 0;
    unsigned long nth = __atomic_add_fetch(&asked, 1, __ATOMIC_SEQ_CST);
    if (!starting) last = (uintptr_t)called_from - base;
    if (nth != refused_at && (!refused_from || nth < refused_from)) return 0;
    __atomic_add_fetch(&refused, 1, __ATOMIC_SEQ_CST);
    if (starting || is_in(starts, last)) __atomic_add_fetch(&starts_refused, 1, __ATOMIC_SEQ_CST);
    errno = ENOMEM;
    return 1;
}

#define IS_REFUSED is_refused(__builtin_return_address(0))

void *malloc(size_t size) { return IS_REFUSED ? NULL : __libc_malloc(size); }
void *calloc(size_t count, size_t size) { return IS_REFUSED ? NULL : __libc_calloc(count, size); }
void *realloc(void *old, size_t size) { return IS_REFUSED ? NULL : __libc_realloc(old, size); }
void *memalign(size_t align, size_t size) { return IS_REFUSED ? NULL : __libc_memalign(align, size); }
void *aligned_alloc(size_t align, size_t size) { return IS_REFUSED ? NULL : __libc_memalign(align, size); }
int posix_memalign(void **made, size_t align, size_t size) {
    if (IS_REFUSED) return ENOMEM;
    *made = __libc_memalign(align, size);
    return *made ? 0 : ENOMEM;
}

int pthread_create(pthread_t *made, const pthread_attr_t *with, void *(*run)(void *), void *given) {
    add(seen, last);
    if (__atomic_add_fetch(&threads, 1, __ATOMIC_SEQ_CST) == no_thread_at) return EAGAIN;
    starting = 1;
    int wrong = create(made, with, run, given);
    starting = 0;
    return wrong;
}
