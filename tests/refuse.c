/* Preloaded into a program, refuses some of its calls of a kind, which are counted from 1.
 *
 *   REFUSE_KIND   memory (malloc and its kin), reads (open, statx, lseek, read) or writes (write)
 *   REFUSE_FROM   the number of the first call that is refused, and
 *   REFUSE_TO     of the last
 *   REFUSE_HOW    fail: with an error; short: one byte is moved; end: a read finds no more bytes
 *   REFUSE_COUNT  a file that gets how many calls there were
 *
 * Where the stack can't grow, which no call can tell, the program ends with `refuse: no stack` on standard error.
 * It needs glibc, whose own names of malloc and its kin it calls, and x86-64. */
#define _GNU_SOURCE
#include <errno.h>
#include <fcntl.h>
#include <signal.h>
#include <stdarg.h>
#include <stdio.h>
#include <stdlib.h>
#include <string.h>
#include <sys/stat.h>
#include <sys/syscall.h>
#include <ucontext.h>
#include <unistd.h>

extern void *__libc_malloc(size_t);
extern void *__libc_calloc(size_t, size_t);
extern void *__libc_realloc(void *, size_t);
extern void *__libc_memalign(size_t, size_t);

enum kind { NONE, MEMORY, READS, WRITES };
enum how { FAIL, SHORT, END };

static enum kind kind;
static enum how how;
static long from, to, count;
static const char *counted;

/* A bad access within 128 KiB of the stack pointer is one to a stack that couldn't grow. */
static void bad_access(int number, siginfo_t *told, void *at)
{
    long pointer = ((ucontext_t *)at)->uc_mcontext.gregs[REG_RSP], distance = (long)told->si_addr - pointer;
    if (-131072 <= distance && distance <= 131072) {
        syscall(SYS_write, 2, "refuse: no stack\n", 17);
        _exit(99);
    }
    signal(number, SIG_DFL);
}

static void watch_stack(void)
{
    static char other[16384];
    stack_t place = {.ss_sp = other, .ss_size = sizeof other};
    struct sigaction act = {.sa_sigaction = bad_access, .sa_flags = SA_SIGINFO | SA_ONSTACK};
    sigaltstack(&place, NULL);
    sigaction(SIGSEGV, &act, NULL);
}

__attribute__((constructor)) static void begin(void)
{
    const char *which = getenv("REFUSE_KIND"), *way = getenv("REFUSE_HOW");
    const char *first = getenv("REFUSE_FROM"), *last = getenv("REFUSE_TO");
    watch_stack();
    counted = getenv("REFUSE_COUNT");
    from = first ? atol(first) : 0;
    to = last ? atol(last) : 0;
    how = way && !strcmp(way, "short") ? SHORT : way && !strcmp(way, "end") ? END : FAIL;
    if (which)
        kind = !strcmp(which, "memory") ? MEMORY : !strcmp(which, "reads") ? READS : WRITES;
}

__attribute__((destructor)) static void end(void)
{
    char text[32];
    int length = snprintf(text, sizeof text, "%ld", count);
    if (counted) {
        long file = syscall(SYS_open, counted, O_WRONLY | O_CREAT | O_TRUNC, 0600);
        if (file >= 0)
            syscall(SYS_write, file, text, length);
    }
}

static int refused(enum kind which)
{
    if (which != kind)
        return 0;
    count++;
    return from <= count && count <= to;
}

static void *no_memory(void)
{
    errno = ENOMEM;
    return NULL;
}

static int io_error(void)
{
    errno = EIO;
    return -1;
}

void *malloc(size_t size)
{
    return refused(MEMORY) ? no_memory() : __libc_malloc(size);
}

void *calloc(size_t number, size_t size)
{
    return refused(MEMORY) ? no_memory() : __libc_calloc(number, size);
}

void *realloc(void *old, size_t size)
{
    return refused(MEMORY) ? no_memory() : __libc_realloc(old, size);
}

void *aligned_alloc(size_t align, size_t size)
{
    return refused(MEMORY) ? no_memory() : __libc_memalign(align, size);
}

int posix_memalign(void **made, size_t align, size_t size)
{
    void *got = refused(MEMORY) ? NULL : __libc_memalign(align, size);
    if (!got)
        return ENOMEM;
    *made = got;
    return 0;
}

/* Of the calls on files only a read can be short or find the end; the others are made then. */
int open(const char *path, int flags, ...)
{
    va_list rest;
    va_start(rest, flags);
    int mode = va_arg(rest, int);
    va_end(rest);
    return refused(READS) && how == FAIL ? io_error() : (int)syscall(SYS_openat, AT_FDCWD, path, flags, mode);
}

int openat(int folder, const char *path, int flags, ...)
{
    va_list rest;
    va_start(rest, flags);
    int mode = va_arg(rest, int);
    va_end(rest);
    return refused(READS) && how == FAIL ? io_error() : (int)syscall(SYS_openat, folder, path, flags, mode);
}

int statx(int folder, const char *restrict path, int flags, unsigned mask, struct statx *restrict into)
{
    return refused(READS) && how == FAIL ? io_error() : (int)syscall(SYS_statx, folder, path, flags, mask, into);
}

off_t lseek(int file, off_t offset, int whence)
{
    return refused(READS) && how == FAIL ? io_error() : syscall(SYS_lseek, file, offset, whence);
}

ssize_t read(int file, void *into, size_t size)
{
    if (refused(READS)) {
        if (how == FAIL)
            return io_error();
        if (how == END)
            return 0;
        size = size < 1 ? size : 1;
    }
    return syscall(SYS_read, file, into, size);
}

ssize_t write(int file, const void *bytes, size_t size)
{
    if (refused(WRITES)) {
        if (how != SHORT)
            return io_error();
        size = size < 1 ? size : 1;
    }
    return syscall(SYS_write, file, bytes, size);
}
