/* Makes what a program asks of its machine fail, at a place of one's choice. It is put before the C library:
 *
 *     cc -shared -fPIC -O2 -o faults.so faults.c
 *     LD_PRELOAD=./faults.so FAULT_COUNTS=counts REFUSE=17 dlsim ...
 *
 *     REFUSE=N       the Nth request for memory is refused; REFUSE_ALL=N: that one and all behind it
 *     FAIL_READ=N    the Nth read fails with EIO; FAIL_WRITE=N likewise
 *     SHORT=N        reads and writes go at most N bytes
 *     NO_THREAD=N    the Nth thread is not started
 *     FAULT_COUNTS   a file of 40 bytes that is there: the requests for memory, reads, writes and starts so far, and the faults made
 */
#define _GNU_SOURCE
#include <dlfcn.h>
#include <errno.h>
#include <fcntl.h>
#include <pthread.h>
#include <stdatomic.h>
#include <stdlib.h>
#include <sys/mman.h>
#include <sys/syscall.h>
#include <unistd.h>

enum { MEMORY, READS, WRITES, STARTS, MADE, COUNTS };

extern void *__libc_malloc(size_t), *__libc_calloc(size_t, size_t), *__libc_realloc(void *, size_t), *__libc_memalign(size_t, size_t);

static _Atomic long unshared[COUNTS];
static _Atomic long *counts = unshared;
static long refuse, refuse_all, fail_read, fail_write, no_thread, at_most;
static int (*start)(pthread_t *, const pthread_attr_t *, void *(*)(void *), void *);

static long number(const char *name) {
    const char *text = getenv(name);
    return text ? atol(text) : 0;
}

__attribute__((constructor)) static void begin(void) {
    const char *path = getenv("FAULT_COUNTS");
    int file = path ? open(path, O_RDWR) : -1;
    if (file >= 0) {
        void *page = mmap(0, sizeof unshared, PROT_READ | PROT_WRITE, MAP_SHARED, file, 0);
        if (page != MAP_FAILED) counts = page;
        close(file);
    }
    *(void **)&start = dlsym(RTLD_NEXT, "pthread_create");
    fail_read = number("FAIL_READ"), fail_write = number("FAIL_WRITE"), no_thread = number("NO_THREAD"), at_most = number("SHORT");
    refuse_all = number("REFUSE_ALL"), refuse = number("REFUSE");
    atomic_store(&counts[MEMORY], 0);
}

/* Counts a call, and says whether it is to fail. */
static int fails(int kind, long at, long from) {
    long place = atomic_fetch_add(&counts[kind], 1) + 1;
    if (place != at && (from == 0 || place < from)) return 0;
    atomic_fetch_add(&counts[MADE], 1);
    return 1;
}

static int is_refused(void) {
    if (!fails(MEMORY, refuse, refuse_all)) return 0;
    errno = ENOMEM;
    return 1;
}

void *malloc(size_t size) { return is_refused() ? 0 : __libc_malloc(size); }

void *calloc(size_t count, size_t size) { return is_refused() ? 0 : __libc_calloc(count, size); }

void *realloc(void *old, size_t size) { return is_refused() ? 0 : __libc_realloc(old, size); }

void *aligned_alloc(size_t align, size_t size) { return is_refused() ? 0 : __libc_memalign(align, size); }

int posix_memalign(void **out, size_t align, size_t size) {
    if (is_refused()) return ENOMEM;
    void *got = __libc_memalign(align, size);
    if (!got) return ENOMEM;
    *out = got;
    return 0;
}

static size_t cut(size_t size) { return at_most && size > (size_t)at_most ? (size_t)at_most : size; }

ssize_t read(int file, void *to, size_t size) {
    if (file != 0) return syscall(SYS_read, file, to, size);
    if (fails(READS, fail_read, 0)) return errno = EIO, -1;
    return syscall(SYS_read, file, to, cut(size));
}

ssize_t write(int file, const void *from, size_t size) {
    if (file != 1) return syscall(SYS_write, file, from, size);
    if (fails(WRITES, fail_write, 0)) return errno = EIO, -1;
    return syscall(SYS_write, file, from, cut(size));
}

int pthread_create(pthread_t *thread, const pthread_attr_t *how, void *(*body)(void *), void *with) {
    if (fails(STARTS, no_thread, 0)) return EAGAIN;
    return start(thread, how, body, with);
}
