/* Loaded before the C library, it meets some of the calls by which a program asks for memory, for threads, or something
   of the system: it refuses them, or holds them until somebody says go on, or kills the program there. refuser.py
   starts programs with it.

   REFUSER_KINDS   which calls are counted, a letter for each kind: m memory, t threads, s what a file is, o opening,
                   l listing a folder, r reading, w writing, p how many processors there are
   REFUSER_FIRST   the first that is met, counted from 1; 0 for none
   REFUSER_LAST    the last
   REFUSER_DOES    r refuse, h hold, k kill, t tell alone
   REFUSER_ERROR   the error of a call of the system that is refused; 0 for a write that takes nothing
   REFUSER_MOST    the most bytes that one call writes; 0 for as many as it is asked for
   REFUSER_SHORT   the most bytes that one call reads; 0 for as many as it is asked for. A read at an offset asks the
                   system for all of them.
   REFUSER_BROKEN  a file of which each read fails, whatever is counted; none where it is empty
   REFUSER_TOLD    the descriptor on which each call that is met is told in a line: its kind, its descriptor, the offset
                   where it is known, and its file; of memory `first` or `later`, as the thread is that asks
   REFUSER_GO      the descriptor from which one byte is read for each call that is held */
#define _GNU_SOURCE
#include <dlfcn.h>
#include <errno.h>
#include <fcntl.h>
#include <limits.h>
#include <pthread.h>
#include <signal.h>
#include <stdarg.h>
#include <stdio.h>
#include <stdlib.h>
#include <string.h>
#include <sys/stat.h>
#include <sys/syscall.h>
#include <unistd.h>

extern void *__libc_malloc(size_t);
extern void *__libc_calloc(size_t, size_t);
extern void *__libc_realloc(void *, size_t);
extern void *__libc_memalign(size_t, size_t);

typedef int Create(pthread_t *, const pthread_attr_t *, void *(*)(void *), void *);

typedef long Tell(int);

static const char *kinds = "", *broken = "";
static long calls, first, last, most, brief;
static int told, go, error;
static char does = 'r';
static Create *create;
static Tell *next_sysconf;

static long number(const char *name) {
    const char *text = getenv(name);
    return text ? atol(text) : 0;
}

__attribute__((constructor)) static void begin(void) {
    create = (Create *)dlsym(RTLD_NEXT, "pthread_create");
    next_sysconf = (Tell *)dlsym(RTLD_NEXT, "sysconf");
    first = number("REFUSER_FIRST");
    last = number("REFUSER_LAST");
    most = number("REFUSER_MOST");
    brief = number("REFUSER_SHORT");
    told = number("REFUSER_TOLD");
    go = number("REFUSER_GO");
    error = number("REFUSER_ERROR");
    does = getenv("REFUSER_DOES") ? getenv("REFUSER_DOES")[0] : 'r';
    kinds = getenv("REFUSER_KINDS") ? getenv("REFUSER_KINDS") : "";
    broken = getenv("REFUSER_BROKEN") ? getenv("REFUSER_BROKEN") : "";
    calls = 0;
}

/* The file that a descriptor is open upon. */
static void name_of(int file, char *name) {
    char link[64];
    snprintf(link, sizeof link, "/proc/self/fd/%d", file);
    long length = syscall(SYS_readlink, link, name, PATH_MAX - 1);
    name[length < 0 ? 0 : length] = 0;
}

static void tell(char kind, int file, long offset, const char *place) {
    char name[PATH_MAX], line[PATH_MAX + 64];
    if (!place) name_of(file, name);
    int length = snprintf(line, sizeof line, "%c %d %ld %s\n", kind, file, offset, place ? place : name);
    if (syscall(SYS_write, told, line, length) != length) abort();
}

/* Whether a call is refused; one that is held goes on afterwards. */
static int meets(char kind, int file, long offset, const char *place) {
    if (!strchr(kinds, kind)) return 0;
    long call = __atomic_add_fetch(&calls, 1, __ATOMIC_SEQ_CST);
    if (call < first || last < call || first == 0) return 0;
    char byte;
    tell(kind, file, offset, place);
    if (does == 'k') syscall(SYS_kill, getpid(), SIGKILL);
    if (does == 'h' && syscall(SYS_read, go, &byte, 1) != 1) abort();
    return does == 'r';
}

static int refuses(char kind, int file, long offset, const char *place) {
    if (!meets(kind, file, offset, place)) return 0;
    errno = error;
    return 1;
}

/* Whether a file is the one that cannot be read. */
static int is_broken(int file) {
    char name[PATH_MAX];
    if (!*broken) return 0;
    name_of(file, name);
    if (strcmp(name, broken)) return 0;
    errno = error;
    return 1;
}

static int refuses_memory(void) {
    if (!meets('m', -1, -1, syscall(SYS_gettid) == getpid() ? "first" : "later")) return 0;
    errno = ENOMEM;
    return 1;
}

void *malloc(size_t size) { return refuses_memory() ? NULL : __libc_malloc(size); }
void *calloc(size_t count, size_t size) { return refuses_memory() ? NULL : __libc_calloc(count, size); }
void *realloc(void *old, size_t size) { return refuses_memory() ? NULL : __libc_realloc(old, size); }
void *aligned_alloc(size_t align, size_t size) { return refuses_memory() ? NULL : __libc_memalign(align, size); }
int posix_memalign(void **made, size_t align, size_t size) {
    *made = aligned_alloc(align, size);
    return *made ? 0 : ENOMEM;
}

int pthread_create(pthread_t *thread, const pthread_attr_t *how, void *(*run)(void *), void *with) {
    return meets('t', -1, -1, "") ? EAGAIN : create(thread, how, run, with);
}

long sysconf(int what) {
    if (what == _SC_NPROCESSORS_ONLN && refuses('p', -1, -1, "")) return -1;
    return next_sysconf(what);
}

/* Without a place it asks what a descriptor is open upon. */
int statx(int folder, const char *place, int flags, unsigned mask, struct statx *answer) {
    if (refuses('s', folder, -1, *place ? place : NULL)) return -1;
    return syscall(SYS_statx, folder, place, flags, mask, answer);
}

int openat(int folder, const char *place, int flags, ...) {
    va_list more;
    va_start(more, flags);
    mode_t mode = flags & O_CREAT ? va_arg(more, mode_t) : 0;
    va_end(more);
    return refuses('o', folder, -1, place) ? -1 : syscall(SYS_openat, folder, place, flags, mode);
}

int open(const char *place, int flags, ...) {
    va_list more;
    va_start(more, flags);
    mode_t mode = flags & O_CREAT ? va_arg(more, mode_t) : 0;
    va_end(more);
    return openat(AT_FDCWD, place, flags, mode);
}

ssize_t getdents64(int folder, void *buffer, size_t size) {
    return refuses('l', folder, -1, NULL) ? -1 : syscall(SYS_getdents64, folder, buffer, size);
}

static long place_in(int file) { return syscall(SYS_lseek, file, 0, SEEK_CUR); }

ssize_t read(int file, void *buffer, size_t size) {
    if (is_broken(file)) return -1;
    if (refuses('r', file, place_in(file), NULL)) return -1;
    return syscall(SYS_read, file, buffer, brief && (size_t)brief < size ? (size_t)brief : size);
}

ssize_t pread(int file, void *buffer, size_t size, off_t offset) {
    if (refuses('r', file, offset, NULL)) return -1;
    ssize_t count = syscall(SYS_pread64, file, buffer, size, offset);
    return brief && brief < count ? brief : count;
}

ssize_t write(int file, const void *buffer, size_t size) {
    if (refuses('w', file, place_in(file), NULL)) return error ? -1 : 0;
    return syscall(SYS_write, file, buffer, most && (size_t)most < size ? (size_t)most : size);
}

ssize_t __write(int file, const void *buffer, size_t size) { return write(file, buffer, size); }
