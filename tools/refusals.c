/* Stands between a program and the C library (LD_PRELOAD), and refuses what a plan says: one growth of memory or all
 * from it on, one call of a device, or all bytes but one of a read or a write. tools/try-refused-memory writes the plan,
 * a file that is mapped here, and reads from it what came.
 *
 * A growth is a call of malloc or realloc, or the start of a thread. A call of a device is one of open, read, write,
 * rename, unlink, statx, lseek and close. Both are numbered from 1, in the order in which they come. */
#define _GNU_SOURCE
#include <dlfcn.h>
#include <errno.h>
#include <fcntl.h>
#include <pthread.h>
#include <stdarg.h>
#include <stdatomic.h>
#include <stdint.h>
#include <stdio.h>
#include <stdlib.h>
#include <string.h>
#include <sys/mman.h>
#include <sys/stat.h>
#include <sys/types.h>
#include <unistd.h>

enum { PATH = 600, FILES = 64 };

/* The kinds of calls, as tools/try-refused-memory names them. */
enum kind { NONE, LOAD_OPEN, STORE_OPEN, READ, WRITE, RENAME, UNLINK, STATX, LSEEK, CLOSE };

struct plan {
    /* What is refused: 0 is none. */
    uint64_t growth, growths_on, call, error, move, moves_on;
    /* What came: the growths, calls, and reads and writes of several bytes, and how many of each were refused. */
    _Atomic uint64_t growths, calls, moves, refused, failed, shortened;
    /* The call that failed, the number of its file or stream, and the path. */
    uint64_t kind, number;
    char path[PATH];
};

static struct plan *plan;
static char paths[FILES][PATH];

static __attribute__((constructor)) void begin(void)
{
    const char *name = getenv("REFUSALS");
    int (*really_open)(const char *, int, ...) = dlsym(RTLD_NEXT, "open");
    int file = name ? really_open(name, O_RDWR | O_CLOEXEC) : -1;
    if (file < 0)
        return;
    void *place = mmap(NULL, sizeof *plan, PROT_READ | PROT_WRITE, MAP_SHARED, file, 0);
    int (*really_close)(int) = dlsym(RTLD_NEXT, "close");
    really_close(file);
    plan = place == MAP_FAILED ? NULL : place;
}

/* Whether this growth is refused. */
static int is_refused(void)
{
    if (!plan)
        return 0;
    uint64_t number = atomic_fetch_add(&plan->growths, 1) + 1;
    if (!plan->growth || number < plan->growth || (number > plan->growth && !plan->growths_on))
        return 0;
    atomic_fetch_add(&plan->refused, 1);
    errno = ENOMEM;
    return 1;
}

/* Whether this call of a device fails. */
static int is_failing(enum kind kind, int number, const char *path)
{
    if (!plan || atomic_fetch_add(&plan->calls, 1) + 1 != plan->call)
        return 0;
    atomic_fetch_add(&plan->failed, 1);
    plan->kind = kind;
    plan->number = number;
    if (!path && number >= 0 && number < FILES)
        path = paths[number];
    if (path)
        strncpy(plan->path, path, PATH - 1);
    errno = plan->error;
    return 1;
}

/* How many bytes of so many move. */
static size_t moved(size_t count)
{
    if (!plan || count < 2)
        return count;
    uint64_t number = atomic_fetch_add(&plan->moves, 1) + 1;
    if (number != plan->move && !plan->moves_on)
        return count;
    atomic_fetch_add(&plan->shortened, 1);
    return 1;
}

/* What the C library itself does under this name. */
#define REALLY(name) \
    static __typeof__(name) *really; \
    if (!really) \
    really = (__typeof__(name) *)dlsym(RTLD_NEXT, #name)

void *malloc(size_t size)
{
    REALLY(malloc);
    return is_refused() ? NULL : really(size);
}

void *realloc(void *place, size_t size)
{
    REALLY(realloc);
    return is_refused() ? NULL : really(place, size);
}

int pthread_create(pthread_t *thread, const pthread_attr_t *how, void *(*start)(void *), void *with)
{
    REALLY(pthread_create);
    return is_refused() ? EAGAIN : really(thread, how, start, with);
}

int open(const char *path, int how, ...)
{
    REALLY(open);
    va_list rest;
    va_start(rest, how);
    mode_t mode = how & O_CREAT ? va_arg(rest, mode_t) : 0;
    va_end(rest);
    if (is_failing((how & O_ACCMODE) == O_RDONLY ? LOAD_OPEN : STORE_OPEN, -1, path))
        return -1;
    int file = really(path, how, mode);
    if (file >= 0 && file < FILES)
        strncpy(paths[file], path, PATH - 1);
    return file;
}

ssize_t read(int file, void *bytes, size_t count)
{
    REALLY(read);
    return is_failing(READ, file, NULL) ? -1 : really(file, bytes, moved(count));
}

ssize_t write(int file, const void *bytes, size_t count)
{
    REALLY(write);
    return is_failing(WRITE, file, NULL) ? -1 : really(file, bytes, moved(count));
}

int rename(const char *from, const char *to)
{
    REALLY(rename);
    return is_failing(RENAME, -1, to) ? -1 : really(from, to);
}

int unlink(const char *path)
{
    REALLY(unlink);
    return is_failing(UNLINK, -1, path) ? -1 : really(path);
}

int statx(int folder, const char *path, int how, unsigned int mask, struct statx *found)
{
    REALLY(statx);
    return is_failing(STATX, -1, path) ? -1 : really(folder, path, how, mask, found);
}

off_t lseek(int file, off_t place, int whence)
{
    REALLY(lseek);
    return is_failing(LSEEK, file, NULL) ? -1 : really(file, place, whence);
}

/* A file is closed even where that fails. */
int close(int file)
{
    REALLY(close);
    int failing = is_failing(CLOSE, file, NULL), error = errno, answer = really(file);
    if (!failing)
        return answer;
    errno = error;
    return -1;
}
