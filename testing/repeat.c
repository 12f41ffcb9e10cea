/* Loaded before a program, calls its `main` REPEAT times in one process, and writes into the file REPEAT_TOLD, after the
   tenth part of the calls and after the last one, the pages of address space and of memory that it has, and its threads.
   Where `main` ends the process by `_exit`, it is called again all the same. The status is that of the last call, where
   all were the same, and 99 otherwise. */
#define _GNU_SOURCE
#include <dirent.h>
#include <dlfcn.h>
#include <setjmp.h>
#include <stdio.h>
#include <stdlib.h>
#include <sys/syscall.h>
#include <unistd.h>

typedef int main_function(int, char **, char **);
static main_function *main_of_program;
static jmp_buf after_run;
static int is_running, ended_with;

void _exit(int status) {
    if (is_running) {
        ended_with = status;
        longjmp(after_run, 1);
    }
    syscall(SYS_exit_group, status);
    __builtin_unreachable();
}

/* The status of one call of `main`, whether it returns or ends the process. */
static int status_of_run(int count, char **words, char **environment) {
    is_running = 1;
    if (setjmp(after_run) == 0) ended_with = main_of_program(count, words, environment);
    is_running = 0;
    return ended_with;
}

static int threads_now(void) {
    int count = -2;
    DIR *tasks = opendir("/proc/self/task");
    if (!tasks) return -1;
    while (readdir(tasks)) count++;
    closedir(tasks);
    return count;
}

static void tell(long number) {
    long space = 0, resident = 0;
    FILE *pages = fopen("/proc/self/statm", "r"), *told = fopen(getenv("REPEAT_TOLD"), "a");
    if (!pages || !told || fscanf(pages, "%ld %ld", &space, &resident) != 2) abort();
    fprintf(told, "%ld %ld %ld %d\n", number, space, resident, threads_now());
    fclose(told);
    fclose(pages);
}

static int main_again(int count, char **words, char **environment) {
    long times = atol(getenv("REPEAT"));
    int first = 0, is_same = 1;
    for (long number = 1; number <= times; number++) {
        int status = status_of_run(count, words, environment);
        if (number == 1) first = status;
        is_same = is_same && status == first;
        if (number == times / 10 || number == times) tell(number);
    }
    return is_same ? first : 99;
}

int __libc_start_main(main_function *of_program, int count, char **words, void (*init)(void), void (*end)(void),
                      void (*end_of_loader)(void), void *stack) {
    int (*start)(main_function *, int, char **, void (*)(void), void (*)(void), void (*)(void), void *) =
        dlsym(RTLD_NEXT, "__libc_start_main");
    main_of_program = of_program;
    return start(main_again, count, words, init, end, end_of_loader, stack);
}
