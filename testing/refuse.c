/* Loaded before a program, refuses its allocation number REFUSE_AT and its start of a thread number REFUSE_START, counted
   from 1, and makes the file REFUSE_MET where it did. An allocation of REFUSE_BETWEEN bytes is a mark: from the first to the
   second, from the third to the fourth and so on it refuses each allocation too. Where the program ends it writes into the
   file REFUSE_COUNTS how many allocations were asked for, how many threads were started, how many of them were joined, how many
   marks there were, and how many bytes all allocations have. Every other call is the C library's own. */
#define _GNU_SOURCE
#include <dlfcn.h>
#include <errno.h>
#include <fcntl.h>
#include <pthread.h>
#include <stdatomic.h>
#include <stdio.h>
#include <stdlib.h>
#include <sys/syscall.h>
#include <unistd.h>

extern void *__libc_malloc(size_t);
extern void *__libc_calloc(size_t, size_t);
extern void *__libc_realloc(void *, size_t);
extern void *__libc_memalign(size_t, size_t);

static atomic_long allocations, starts, started, joined, marks, bytes;

static int is_its_turn(atomic_long *calls, const char *name) {
    long number = atomic_fetch_add(calls, 1) + 1;
    const char *at = getenv(name);
    return at && number == atol(at);
}

static int is_between(size_t size) {
    const char *mark = getenv("REFUSE_BETWEEN");
    int is_mark = mark && size == (size_t)atol(mark);
    if (is_mark) atomic_fetch_add(&marks, 1);
    return !is_mark && marks % 2 == 1;
}

static void make_met(void) {
    const char *met = getenv("REFUSE_MET");
    int file = met ? open(met, O_CREAT | O_WRONLY | O_TRUNC, 0644) : -1;
    if (file >= 0) close(file);
}

static int is_refused(size_t size) {
    atomic_fetch_add(&bytes, size);
    if (!is_its_turn(&allocations, "REFUSE_AT") && !is_between(size)) return 0;
    make_met();
    errno = ENOMEM;
    return 1;
}

void *malloc(size_t size) { return is_refused(size) ? NULL : __libc_malloc(size); }

void *calloc(size_t count, size_t size) { return is_refused(count * size) ? NULL : __libc_calloc(count, size); }

void *realloc(void *old, size_t size) { return is_refused(size) ? NULL : __libc_realloc(old, size); }

void *aligned_alloc(size_t align, size_t size) {
    return is_refused(size) ? NULL : __libc_memalign(align, size);
}

int posix_memalign(void **made, size_t align, size_t size) {
    if (is_refused(size)) return ENOMEM;
    *made = __libc_memalign(align, size);
    return *made ? 0 : ENOMEM;
}

int pthread_create(pthread_t *thread, const pthread_attr_t *how, void *(*work)(void *), void *with) {
    int (*create)(pthread_t *, const pthread_attr_t *, void *(*)(void *), void *) = dlsym(RTLD_NEXT, "pthread_create");
    if (is_its_turn(&starts, "REFUSE_START")) {
        make_met();
        return EAGAIN;
    }
    int status = create(thread, how, work, with);
    if (status == 0) atomic_fetch_add(&started, 1);
    return status;
}

int pthread_join(pthread_t thread, void **result) {
    int (*join)(pthread_t, void **) = dlsym(RTLD_NEXT, "pthread_join");
    int status = join(thread, result);
    if (status == 0) atomic_fetch_add(&joined, 1);
    return status;
}

static void tell(void) {
    const char *counts = getenv("REFUSE_COUNTS");
    int file = counts ? open(counts, O_CREAT | O_WRONLY | O_TRUNC, 0644) : -1;
    if (file < 0) return;
    dprintf(file, "%ld %ld %ld %ld %ld\n", (long)allocations, (long)started, (long)joined, (long)marks, (long)bytes);
    close(file);
}

__attribute__((destructor)) static void end(void) { tell(); }

void _exit(int status) {
    tell();
    syscall(SYS_exit_group, status);
    __builtin_unreachable();
}
