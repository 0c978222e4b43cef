/* Loaded before the C library, it has the main of a program called again and again in one process, so that a run costs
   no new process. Each run has the same words, but for the end of one of them, which is the run's number. changed.py
   starts programs with it.

   AGAIN_RUNS   how many runs there are
   AGAIN_WORD   which word ends with the number, in decimal digits: 0 stands there for the first run
   AGAIN_ROOM   the most bytes of the address space
   AGAIN_TOLD   the descriptor on which each run is told once it has ended, in a line: its status, and how many bytes
                there are then of standard output and of standard error, which are files */
#define _GNU_SOURCE
#include <dlfcn.h>
#include <setjmp.h>
#include <stdio.h>
#include <stdlib.h>
#include <string.h>
#include <sys/resource.h>
#include <sys/syscall.h>
#include <unistd.h>

typedef int Main(int, char **, char **);
typedef int Start(Main *, int, char **, void (*)(void), void (*)(void), void (*)(void), void *);

static Main *program;
static jmp_buf end;
static int status;

static long number(const char *name) { return atol(getenv(name)); }

/* The program ends its run by it, wherever it stands; the process goes on. */
void _exit(int code) {
    status = code;
    longjmp(end, 1);
}

/* The next number in the digits that end a word. */
static void count_up(char *word) {
    char *digit = word + strlen(word) - 1;
    while (*digit == '9') *digit-- = '0';
    ++*digit;
}

static int again(int count, char **words, char **environment) {
    struct rlimit room = {number("AGAIN_ROOM"), RLIM_INFINITY};
    long runs = number("AGAIN_RUNS"), told = number("AGAIN_TOLD");
    char *word = words[number("AGAIN_WORD")];
    if (setrlimit(RLIMIT_AS, &room)) abort();
    for (volatile long run = 0; run < runs; ++run) {
        if (!setjmp(end)) status = program(count, words, environment);
        dprintf(told, "%d %ld %ld\n", status, (long)lseek(1, 0, SEEK_CUR), (long)lseek(2, 0, SEEK_CUR));
        count_up(word);
    }
    syscall(SYS_exit_group, 0);
    return 0;
}

int __libc_start_main(Main *main, int count, char **words, void (*init)(void), void (*fini)(void),
                      void (*loader_fini)(void), void *stack) {
    Start *start = (Start *)dlsym(RTLD_NEXT, "__libc_start_main");
    program = main;
    return start(again, count, words, init, fini, loader_fini, stack);
}
