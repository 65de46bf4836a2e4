/* Put before the program by bench/refused (LD_PRELOAD). The environment says which call fails and how:
     REFUSE       what is counted: memory, read, write or thread
     REFUSE_AT    the number of the call that fails, from 1; with a + behind it, that one and all later ones
     REFUSE_HOW   of a read or a write: error (EIO), interrupted (EINTR) or short (one byte at most)
     REFUSE_NOTE  a file to which one byte is added for each call that failed
   Calls are counted over all threads. */
#define _GNU_SOURCE
#include <dlfcn.h>
#include <errno.h>
#include <fcntl.h>
#include <pthread.h>
#include <stdlib.h>
#include <string.h>
#include <sys/syscall.h>
#include <unistd.h>

enum kind { MEMORY, READ, WRITE, THREAD, NONE };
enum how { ERROR, INTERRUPTED, SHORT };

static enum kind kind = NONE;
static enum how how = ERROR;
static long at;
static int and_later;
static long calls;
static const char *note;

__attribute__((constructor)) static void begin(void)
{
    const char *what = getenv("REFUSE"), *number = getenv("REFUSE_AT"), *way = getenv("REFUSE_HOW");
    note = getenv("REFUSE_NOTE");
    if (!what || !number)
        return;
    at = atol(number);
    and_later = strchr(number, '+') != NULL;
    if (way && !strcmp(way, "interrupted"))
        how = INTERRUPTED;
    if (way && !strcmp(way, "short"))
        how = SHORT;
    kind = !strcmp(what, "memory") ? MEMORY : !strcmp(what, "read") ? READ : !strcmp(what, "write") ? WRITE : THREAD;
}

static int fails(enum kind of)
{
    long number;
    if (kind != of)
        return 0;
    number = __atomic_add_fetch(&calls, 1, __ATOMIC_RELAXED);
    if (number != at && !(and_later && number > at))
        return 0;
    if (note) {
        int file = open(note, O_WRONLY | O_APPEND | O_CREAT, 0600);
        if (file >= 0) {
            syscall(SYS_write, file, "x", 1);
            close(file);
        }
    }
    return 1;
}

extern void *__libc_malloc(size_t size);
extern void *__libc_realloc(void *old, size_t size);

void *malloc(size_t size)
{
    if (fails(MEMORY)) {
        errno = ENOMEM;
        return NULL;
    }
    return __libc_malloc(size);
}

void *realloc(void *old, size_t size)
{
    if (fails(MEMORY)) {
        errno = ENOMEM;
        return NULL;
    }
    return __libc_realloc(old, size);
}

static long moved(long call, enum kind of, int file, void *bytes, size_t count)
{
    if (fails(of)) {
        if (how != SHORT) {
            errno = how == ERROR ? EIO : EINTR;
            return -1;
        }
        count = count > 1 ? 1 : count;
    }
    return syscall(call, file, bytes, count);
}

ssize_t read(int file, void *bytes, size_t count) { return moved(SYS_read, READ, file, bytes, count); }

ssize_t write(int file, const void *bytes, size_t count) { return moved(SYS_write, WRITE, file, (void *)bytes, count); }

int pthread_create(pthread_t *thread, const pthread_attr_t *attributes, void *(*run)(void *), void *argument)
{
    static int (*next)(pthread_t *, const pthread_attr_t *, void *(*)(void *), void *);
    if (fails(THREAD))
        return EAGAIN;
    if (!next)
        *(void **)&next = dlsym(RTLD_NEXT, "pthread_create");
    return next(thread, attributes, run, argument);
}
