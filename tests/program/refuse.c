/* Refuses a program what it asks of the system, once: the n-th growth of memory, start of a thread, open, read or write.
 *
 *     cc -O2 -shared -fPIC -o refuse.so tests/program/refuse.c
 *     REFUSE=growth:3 REFUSE_FD=9 LD_PRELOAD=./refuse.so program ..
 *
 * REFUSE names the kind (growth, start, open, read, write) and the number, from 1; a byte on the file REFUSE_FD says that it came to that.
 * With ONE_BYTE set, each read and write moves one byte. tests/program/hostile.py builds and uses it.
 */
#define _GNU_SOURCE
#include <dlfcn.h>
#include <errno.h>
#define open open_of_header
#include <fcntl.h>
#undef open
#include <pthread.h>
#include <stdarg.h>
#include <stdatomic.h>
#include <stdlib.h>
#include <string.h>
#include <sys/syscall.h>
#include <unistd.h>

static const char *kind = "";
static size_t kind_length;
static long wanted, told_to;
static int one_byte;
static atomic_long asked;

__attribute__((constructor)) static void begin(void)
{
    const char *text = getenv("REFUSE"), *file = getenv("REFUSE_FD"), *number = text ? strchr(text, ':') : NULL;
    one_byte = getenv("ONE_BYTE") != NULL;
    if (number && file) {
        kind = text;
        kind_length = (size_t)(number - text);
        wanted = atol(number + 1);
        told_to = atol(file);
    }
}

/* Whether this call is the one that is refused. */
static int refused(const char *call, int why)
{
    if (strlen(call) != kind_length || strncmp(call, kind, kind_length) != 0 || atomic_fetch_add(&asked, 1) + 1 != wanted)
        return 0;
    syscall(SYS_write, told_to, "!", 1);
    errno = why;
    return 1;
}

static void *next(const char *name)
{
    return dlsym(RTLD_NEXT, name);
}

extern void *__libc_malloc(size_t), *__libc_realloc(void *, size_t);

void *malloc(size_t bytes)
{
    return refused("growth", ENOMEM) ? NULL : __libc_malloc(bytes);
}

void *realloc(void *old, size_t bytes)
{
    return refused("growth", ENOMEM) ? NULL : __libc_realloc(old, bytes);
}

int pthread_create(pthread_t *thread, const pthread_attr_t *how, void *(*run)(void *), void *with)
{
    int (*real)(pthread_t *, const pthread_attr_t *, void *(*)(void *), void *) = next("pthread_create");
    return refused("start", EAGAIN) ? EAGAIN : real(thread, how, run, with);
}

int open(const char *path, int how, ...)
{
    va_list more;
    va_start(more, how);
    mode_t mode = how & O_CREAT ? va_arg(more, mode_t) : 0;
    va_end(more);
    return refused("open", EIO) ? -1 : (int)syscall(SYS_openat, -100, path, how, mode);
}

ssize_t read(int file, void *to, size_t bytes)
{
    return refused("read", EIO) ? -1 : syscall(SYS_read, file, to, one_byte && bytes > 1 ? 1 : bytes);
}

ssize_t write(int file, const void *from, size_t bytes)
{
    return refused("write", EIO) ? -1 : syscall(SYS_write, file, from, one_byte && bytes > 1 ? 1 : bytes);
}
