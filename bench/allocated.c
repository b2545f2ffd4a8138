// Counts what a program asks of malloc, and says on err how many bytes it held at once at most.
//
//     mkdir -p out
//     gcc -O2 -shared -fPIC -o out/allocated.so bench/allocated.c
//     LD_PRELOAD=out/allocated.so crates/kb/out/kb kbprog m12.rws < /dev/null
//
// Each new most is said once it is a two-hundredth above the last that was said, as `allocated BYTES at SECONDS`, each fall to nine
// tenths as `fallen BYTES at SECONDS`, and at the end `allocated at most BYTES`. A piece counts with the bytes that were asked for.
#define _GNU_SOURCE
#include <dlfcn.h>
#include <stdatomic.h>
#include <stdint.h>
#include <stdio.h>
#include <stdlib.h>
#include <sys/syscall.h>
#include <time.h>
#include <unistd.h>

#define PLACES (1u << 22) // of the table of pieces, by their addresses: there are never so many
#define LEAST 100000      // below so many bytes nothing is said

static void *(*real_malloc)(size_t), *(*real_calloc)(size_t, size_t), *(*real_realloc)(void *, size_t);
static void *(*real_aligned)(size_t, size_t), (*real_free)(void *);
static int (*real_memalign)(void **, size_t, size_t);
static _Atomic uintptr_t pieces[PLACES]; // 0 where none ever was, 1 where one was freed
static _Atomic long sizes[PLACES], held, most, said;
static struct timespec start;
static char early[65536]; // for what dlsym itself asks of calloc
static size_t taken;

static void begin(void) {
    if (real_free) return;
    clock_gettime(CLOCK_MONOTONIC, &start);
    real_malloc = dlsym(RTLD_NEXT, "malloc");
    real_calloc = dlsym(RTLD_NEXT, "calloc");
    real_realloc = dlsym(RTLD_NEXT, "realloc");
    real_aligned = dlsym(RTLD_NEXT, "aligned_alloc");
    real_memalign = dlsym(RTLD_NEXT, "posix_memalign");
    real_free = dlsym(RTLD_NEXT, "free");
}

static unsigned place_of(void *piece) {
    return (unsigned)(((uintptr_t)piece >> 4) * 2654435761u) & (PLACES - 1);
}

static void say(const char *what, long bytes) {
    struct timespec now;
    char line[96];
    clock_gettime(CLOCK_MONOTONIC, &now);
    double seconds = (now.tv_sec - start.tv_sec) + (now.tv_nsec - start.tv_nsec) / 1e9;
    int length = snprintf(line, sizeof line, "%s %ld at %.3f\n", what, bytes, seconds);
    if (write(2, line, length) < 0) return;
}

static void count(long bytes) {
    long now = atomic_fetch_add(&held, bytes) + bytes, before = atomic_load(&most), last = atomic_load(&said);
    while (now > before && !atomic_compare_exchange_weak(&most, &before, now)) {}
    if (now < LEAST || (now <= last + last / 200 && now >= last - last / 10)) return;
    if (atomic_compare_exchange_strong(&said, &last, now)) say(now > last ? "allocated" : "fallen", now);
}

// Notes a piece, and gives how many bytes there are more by it.
static long put(void *piece, long bytes) {
    if (!piece) return 0;
    for (unsigned at = place_of(piece);; at = (at + 1) & (PLACES - 1)) {
        uintptr_t there = atomic_load(&pieces[at]);
        if (there <= 1 && atomic_compare_exchange_strong(&pieces[at], &there, (uintptr_t)piece)) {
            atomic_store(&sizes[at], bytes);
            return bytes;
        }
    }
}

// Forgets a piece, and gives its bytes.
static long take(void *piece) {
    unsigned at = place_of(piece);
    for (unsigned tried = 0; tried < PLACES; tried++, at = (at + 1) & (PLACES - 1)) {
        uintptr_t there = atomic_load(&pieces[at]);
        if (!there) return 0;
        if (there == (uintptr_t)piece) {
            long bytes = atomic_load(&sizes[at]);
            atomic_store(&pieces[at], 1);
            return bytes;
        }
    }
    return 0;
}

void *malloc(size_t bytes) {
    begin();
    void *piece = real_malloc(bytes);
    count(put(piece, bytes));
    return piece;
}

void *calloc(size_t many, size_t bytes) {
    if (!real_calloc) {
        void *piece = early + taken;
        taken += (many * bytes + 15) & ~(size_t)15;
        return piece;
    }
    void *piece = real_calloc(many, bytes);
    count(put(piece, many * bytes));
    return piece;
}

void *realloc(void *piece, size_t bytes) {
    begin();
    long before = piece ? take(piece) : 0;
    void *moved = real_realloc(piece, bytes);
    count((moved || !piece ? put(moved, bytes) : put(piece, before)) - before);
    return moved;
}

void *aligned_alloc(size_t alignment, size_t bytes) {
    begin();
    void *piece = real_aligned(alignment, bytes);
    count(put(piece, bytes));
    return piece;
}

int posix_memalign(void **piece, size_t alignment, size_t bytes) {
    begin();
    int refused = real_memalign(piece, alignment, bytes);
    if (!refused) count(put(*piece, bytes));
    return refused;
}

void free(void *piece) {
    begin();
    if ((char *)piece >= early && (char *)piece < early + sizeof early) return;
    if (piece) count(-take(piece));
    real_free(piece);
}

void _exit(int status) {
    char line[64];
    int length = snprintf(line, sizeof line, "allocated at most %ld\n", atomic_load(&most));
    if (write(2, line, length) < 0) status = status;
    for (;;) syscall(SYS_exit_group, status);
}
