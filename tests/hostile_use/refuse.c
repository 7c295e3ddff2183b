/* Refuses memory, or fails a read or a write, of the program that it is loaded into by LD_PRELOAD, and says
 * `refused` on standard error when it does. The environment tells which:
 *   REFUSE_REQUEST=N  the Nth request for memory or for a thread; with REFUSE_REST=1 all later ones too
 *   REFUSE_THREAD=N   the Nth request for a thread; with REFUSE_REST=1 all later ones too
 *   FAIL_READ=K       the first read of standard input after K bytes fails, and later ones work
 *   FAIL_WRITE=K      the first write to standard output after K bytes fails, and later ones work
 *   TAKE_NOTHING=K    the first write to standard output after K bytes takes no byte, and later ones work
 *   PIECES=1          each read and each write moves one byte */
#define _GNU_SOURCE
#include <dlfcn.h>
#include <errno.h>
#include <pthread.h>
#include <stdlib.h>
#include <sys/mman.h>
#include <sys/syscall.h>
#include <sys/uio.h>
#include <unistd.h>

extern void *__libc_malloc(size_t), *__libc_calloc(size_t, size_t), *__libc_realloc(void *, size_t);
extern void *__libc_memalign(size_t, size_t);

static long request, thread, rest, fail_read = -1, fail_write = -1, take_nothing = -1, pieces;
static long requests, threads, read_so_far, written_so_far;

static long number_of(const char *name, long otherwise) {
    const char *text = getenv(name);
    return text ? atol(text) : otherwise;
}

__attribute__((constructor)) static void begin(void) {
    rest = number_of("REFUSE_REST", 0);
    fail_read = number_of("FAIL_READ", -1);
    fail_write = number_of("FAIL_WRITE", -1);
    take_nothing = number_of("TAKE_NOTHING", -1);
    pieces = number_of("PIECES", 0);
    request = number_of("REFUSE_REQUEST", 0);
    thread = number_of("REFUSE_THREAD", 0);
}

static void tell(void) {
    static int told;
    if (!__atomic_exchange_n(&told, 1, __ATOMIC_RELAXED)) syscall(SYS_write, 2, "refused\n", 8);
}

/* Counts one more request, and says whether it is refused: the one of this number is, if that isn't 0. */
static int refuses(long number, long *so_far) {
    if (!number) return 0;
    long count = __atomic_add_fetch(so_far, 1, __ATOMIC_RELAXED);
    if (count != number && !(rest && count > number)) return 0;
    tell();
    errno = ENOMEM;
    return 1;
}

static int refused(void) { return refuses(request, &requests); }

void *malloc(size_t size) { return refused() ? NULL : __libc_malloc(size); }
void *calloc(size_t count, size_t size) { return refused() ? NULL : __libc_calloc(count, size); }
void *realloc(void *old, size_t size) { return refused() ? NULL : __libc_realloc(old, size); }
void *aligned_alloc(size_t align, size_t size) { return refused() ? NULL : __libc_memalign(align, size); }
void *memalign(size_t align, size_t size) { return refused() ? NULL : __libc_memalign(align, size); }

int posix_memalign(void **to, size_t align, size_t size) {
    void *got = refused() ? NULL : __libc_memalign(align, size);
    if (got) *to = got;
    return got ? 0 : ENOMEM;
}

void *mmap(void *at, size_t size, int protection, int flags, int file, off_t offset) {
    return refused() ? MAP_FAILED : (void *)syscall(SYS_mmap, at, size, protection, flags, file, offset);
}

int pthread_create(pthread_t *made, const pthread_attr_t *how, void *(*body)(void *), void *given) {
    int (*real)(pthread_t *, const pthread_attr_t *, void *(*)(void *), void *) = dlsym(RTLD_NEXT, "pthread_create");
    return refused() || refuses(thread, &threads) ? EAGAIN : real(made, how, body, given);
}

/* How much of a piece passes: up to the place of a fault, which comes once it is at the front (-1, or 0 bytes). */
static ssize_t passes(size_t size, long so_far, long *place) {
    if (pieces && size > 1) size = 1;
    if (*place < 0 || size == 0 || so_far + (long)size <= *place) return size;
    if (so_far < *place) return *place - so_far;
    *place = -1;
    tell();
    return -1;
}

ssize_t read(int file, void *piece, size_t size) {
    if (file != 0) return syscall(SYS_read, file, piece, size);
    ssize_t most = passes(size, read_so_far, &fail_read);
    if (most < 0) return errno = EIO, -1;
    ssize_t got = syscall(SYS_read, file, piece, most);
    if (got > 0) read_so_far += got;
    return got;
}

ssize_t write(int file, const void *piece, size_t size) {
    if (file != 1) return syscall(SYS_write, file, piece, size);
    if (passes(size, written_so_far, &take_nothing) < 0) return 0;
    ssize_t most = passes(size, written_so_far, &fail_write);
    if (most < 0) return errno = ENOSPC, -1;
    if (take_nothing >= 0 && written_so_far + most > take_nothing) most = take_nothing - written_so_far;
    ssize_t put = syscall(SYS_write, file, piece, most);
    if (put > 0) written_so_far += put;
    return put;
}

ssize_t writev(int file, const struct iovec *pieces_of, int count) {
    for (int k = 0; k < count; k++)
        if (pieces_of[k].iov_len) return write(file, pieces_of[k].iov_base, pieces_of[k].iov_len);
    return 0;
}
