/* Loaded before a program, makes its reads and writes as short, and as often interrupted or refused, as a system may.

   READ_AT_MOST=N, WRITE_AT_MOST=N    no read gives, no write takes more than N bytes
   INTERRUPTED=1                      each read and write fails once before it is made, as by a signal
   READ_FAILS_AFTER=N                 once N bytes are read, each read fails
   WRITE_FAILS_AFTER=N, FAILING=F     once N bytes are written to file F, each write to it fails
   BEFORE_READ=N, COMMAND=TEXT        before read number N the shell runs this command
   RANDOM_BYTES=zero|refused           the system's random bytes are all zero, or there are none
   CALLS_CUT=FILE                     makes this file where a call was cut short, interrupted or refused */
#define _GNU_SOURCE
#include <errno.h>
#include <fcntl.h>
#include <stdatomic.h>
#include <stdlib.h>
#include <string.h>
#include <sys/random.h>
#include <sys/syscall.h>
#include <sys/types.h>
#include <unistd.h>

static size_t read_at_most, write_at_most, read_fails_after, write_fails_after, before_read;
static int failing, is_interrupting;
static atomic_size_t reads, bytes_read, bytes_written;
static _Thread_local int is_interrupted;

static size_t number(const char *name, size_t otherwise) {
    const char *text = getenv(name);
    return text ? strtoul(text, NULL, 10) : otherwise;
}

__attribute__((constructor)) static void begin(void) {
    read_at_most = number("READ_AT_MOST", -1);
    write_at_most = number("WRITE_AT_MOST", -1);
    read_fails_after = number("READ_FAILS_AFTER", -1);
    write_fails_after = number("WRITE_FAILS_AFTER", -1);
    before_read = number("BEFORE_READ", 0);
    failing = (int)number("FAILING", -1);
    is_interrupting = (int)number("INTERRUPTED", 0);
}

static void tell(void) {
    static atomic_flag is_told = ATOMIC_FLAG_INIT;
    const char *cut = getenv("CALLS_CUT");
    if (!cut || atomic_flag_test_and_set(&is_told)) return;
    int file = creat(cut, 0644);
    if (file >= 0) close(file);
}

static ssize_t refuse(int fault) {
    tell();
    errno = fault;
    return -1;
}

/* Whether this call is to fail as interrupted: each second one of a thread is. */
static int interrupts(void) {
    is_interrupted = is_interrupting && !is_interrupted;
    return is_interrupted;
}

/* The least of the bytes asked for, the most for a call, and what is left before calls fail. */
static size_t allowed(size_t count, size_t at_most, size_t left) {
    size_t least = count < at_most ? count : at_most;
    return least < left ? least : left;
}

ssize_t read(int file, void *bytes, size_t count) {
    if (interrupts()) return refuse(EINTR);
    if (atomic_fetch_add(&reads, 1) + 1 == before_read) {
        unsetenv("LD_PRELOAD");
        if (system(getenv("COMMAND"))) return refuse(EIO);
    }
    size_t left = read_fails_after - bytes_read, least = allowed(count, read_at_most, left);
    if (left == 0) return refuse(EIO);
    ssize_t got = syscall(SYS_read, file, bytes, least);
    if (got > 0) atomic_fetch_add(&bytes_read, got);
    if (got > 0 && least < count && (size_t)got == least) tell();
    return got;
}

ssize_t write(int file, const void *bytes, size_t count) {
    if (interrupts()) return refuse(EINTR);
    size_t left = file == failing ? write_fails_after - bytes_written : (size_t)-1;
    if (left == 0) return refuse(ENOSPC);
    size_t least = allowed(count, write_at_most, left);
    ssize_t took = syscall(SYS_write, file, bytes, least);
    if (took > 0 && file == failing) atomic_fetch_add(&bytes_written, took);
    if (least < count) tell();
    return took;
}

int getentropy(void *bytes, size_t count) {
    const char *random = getenv("RANDOM_BYTES");
    if (!random) return getrandom(bytes, count, 0) == (ssize_t)count ? 0 : -1;
    if (strcmp(random, "zero")) return (int)refuse(EIO);
    memset(bytes, 0, count);
    return 0;
}
