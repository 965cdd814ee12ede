/* Loaded before the built program (LD_PRELOAD): refuses one allocation, fails one opening, read or write, or cuts one read or write to a
   single byte. Which one, a variable of the environment says by its number, from 1:

       REFUSE_ALLOCATION=N   the N-th call of malloc or realloc answers NULL
       FAIL_OPEN=N           the N-th opening of a file fails (EIO)
       FAIL_READ=N, FAIL_WRITE=N    the N-th read or write fails (EIO)
       CUT_READ=N, CUT_WRITE=N      the N-th of those that ask for several bytes moves one

   When the call with the number comes, a byte is written to standard error, so that who runs the program learns whether it came.
   .ci/memory builds this and runs the program with it. */
#define _GNU_SOURCE
#include <dlfcn.h>
#include <errno.h>
#include <fcntl.h>
#include <stdarg.h>
#include <stdlib.h>
#include <sys/syscall.h>
#include <sys/types.h>
#include <unistd.h>

extern char **environ;

struct count {
    const char *name;
    int is_read;
    long due;
    long calls;
};

static struct count allocations = {"REFUSE_ALLOCATION", 0, 0, 0};
static struct count opens = {"FAIL_OPEN", 0, 0, 0};
static struct count reads = {"FAIL_READ", 0, 0, 0};
static struct count writes = {"FAIL_WRITE", 0, 0, 0};
static struct count long_reads = {"CUT_READ", 0, 0, 0};
static struct count long_writes = {"CUT_WRITE", 0, 0, 0};

/* Counts a call, and says whether it is the one. */
static int is_due(struct count *count)
{
    if (!count->is_read && environ) {
        const char *text = getenv(count->name);
        count->due = text ? atol(text) : 0;
        count->is_read = 1;
    }
    count->calls++;
    if (count->due == 0 || count->calls != count->due)
        return 0;
    syscall(SYS_write, 2, ".", 1);
    return 1;
}

static void *next(void **kept, const char *name)
{
    if (!*kept)
        *kept = dlsym(RTLD_NEXT, name);
    return *kept;
}

void *malloc(size_t size)
{
    static void *kept;
    void *(*call)(size_t) = (void *(*)(size_t))next(&kept, "malloc");
    if (is_due(&allocations)) {
        errno = ENOMEM;
        return NULL;
    }
    return call(size);
}

void *realloc(void *old, size_t size)
{
    static void *kept;
    void *(*call)(void *, size_t) = (void *(*)(void *, size_t))next(&kept, "realloc");
    if (is_due(&allocations)) {
        errno = ENOMEM;
        return NULL;
    }
    return call(old, size);
}

/* A file that is made has a mode. */
#define READ_MODE(flags, mode)                       \
    do {                                             \
        if ((flags) & (O_CREAT | O_TMPFILE)) {       \
            va_list rest;                            \
            va_start(rest, flags);                   \
            mode = va_arg(rest, mode_t);             \
            va_end(rest);                            \
        }                                            \
    } while (0)

static int open_file(int folder, const char *path, int flags, mode_t mode)
{
    static void *kept;
    int (*call)(int, const char *, int, ...) = (int (*)(int, const char *, int, ...))next(&kept, "openat");
    if (is_due(&opens)) {
        errno = EIO;
        return -1;
    }
    return call(folder, path, flags, mode);
}

int openat(int folder, const char *path, int flags, ...)
{
    mode_t mode = 0;
    READ_MODE(flags, mode);
    return open_file(folder, path, flags, mode);
}

int open(const char *path, int flags, ...)
{
    mode_t mode = 0;
    READ_MODE(flags, mode);
    return open_file(AT_FDCWD, path, flags, mode);
}

ssize_t read(int from, void *bytes, size_t count)
{
    static void *kept;
    ssize_t (*call)(int, void *, size_t) = (ssize_t(*)(int, void *, size_t))next(&kept, "read");
    if (is_due(&reads)) {
        errno = EIO;
        return -1;
    }
    if (count > 1 && is_due(&long_reads))
        count = 1;
    return call(from, bytes, count);
}

ssize_t write(int into, const void *bytes, size_t count)
{
    static void *kept;
    ssize_t (*call)(int, const void *, size_t) = (ssize_t(*)(int, const void *, size_t))next(&kept, "write");
    if (is_due(&writes)) {
        errno = EIO;
        return -1;
    }
    if (count > 1 && is_due(&long_writes))
        count = 1;
    return call(into, bytes, count);
}
