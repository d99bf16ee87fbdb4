// Stands before the C library's calls in a process (LD_PRELOAD) and refuses one of them, the Nth of a kind:
//
//     REFUSED=alloc:N   malloc or realloc finds no memory
//     REFUSED=io:N      open, read, write or close fails
//     REFUSED=short:N   a read or a write of several bytes moves one
//     REFUSED=again:N   a read or a write is interrupted before it moves anything
//     REFUSED=thread:N  no thread is started
//
// Where it comes to that, it makes the file that REFUSED_MARK names.
#define _GNU_SOURCE
#include <dlfcn.h>
#include <errno.h>
#include <fcntl.h>
#include <pthread.h>
#include <stdarg.h>
#include <stdatomic.h>
#include <stdlib.h>
#include <string.h>
#include <sys/syscall.h>
#include <unistd.h>

extern void *__libc_malloc(size_t);
extern void *__libc_realloc(void *, size_t);

static const char *const KINDS[] = {"alloc", "io", "short", "again", "thread"};
enum { ALLOC, IO, SHORT, AGAIN, THREAD, NONE };
static int refused = NONE;
static long number;
static atomic_long made;
static const char *mark;
static int (*next_pthread_create)(pthread_t *, const pthread_attr_t *, void *(*)(void *), void *);

__attribute__((constructor)) static void begin(void) {
    next_pthread_create = dlsym(RTLD_NEXT, "pthread_create");
    const char *said = getenv("REFUSED");
    const char *colon = said ? strchr(said, ':') : NULL;
    if (!colon) return;
    mark = getenv("REFUSED_MARK");
    number = atol(colon + 1);
    for (int kind = 0; kind < NONE; kind++)
        if (strlen(KINDS[kind]) == (size_t)(colon - said) && !memcmp(KINDS[kind], said, colon - said)) refused = kind;
}

// Whether this call of a kind is the one that is refused.
static int is_refused(int kind) {
    if (kind != refused || atomic_fetch_add(&made, 1) + 1 != number) return 0;
    if (mark) syscall(SYS_close, syscall(SYS_open, mark, O_CREAT | O_WRONLY, 0666));
    return 1;
}

void *malloc(size_t n) {
    if (!is_refused(ALLOC)) return __libc_malloc(n);
    errno = ENOMEM;
    return NULL;
}

void *realloc(void *p, size_t n) {
    if (!is_refused(ALLOC)) return __libc_realloc(p, n);
    errno = ENOMEM;
    return NULL;
}

static ssize_t fails(int with) {
    errno = with;
    return -1;
}

ssize_t read(int file, void *bytes, size_t n) {
    if (is_refused(IO)) return fails(EIO);
    if (is_refused(AGAIN)) return fails(EINTR);
    if (n > 1 && is_refused(SHORT)) n = 1;
    return syscall(SYS_read, file, bytes, n);
}

ssize_t write(int file, const void *bytes, size_t n) {
    if (is_refused(IO)) return fails(ENOSPC);
    if (is_refused(AGAIN)) return fails(EINTR);
    if (n > 1 && is_refused(SHORT)) n = 1;
    return syscall(SYS_write, file, bytes, n);
}

ssize_t __write(int file, const void *bytes, size_t n) {
    return write(file, bytes, n);
}

int open(const char *name, int how, ...) {
    if (is_refused(IO)) return fails(EIO);
    va_list more;
    va_start(more, how);
    int mode = va_arg(more, int);
    va_end(more);
    return syscall(SYS_open, name, how, mode);
}

int close(int file) {
    int closed = syscall(SYS_close, file);
    return is_refused(IO) ? fails(EIO) : closed;
}

int pthread_create(pthread_t *thread, const pthread_attr_t *how, void *(*run)(void *), void *with) {
    return is_refused(THREAD) ? EAGAIN : next_pthread_create(thread, how, run, with);
}
