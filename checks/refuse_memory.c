/*
 * A library to preload, which refuses one request for memory of a program and grants all others. checks/memory.sh
 * compiles and uses it.
 *
 * REFUSE is the number of the request to refuse, counted from 1. At 0 none is refused. REFUSED is the path of a file.
 * It is made when the request is refused, and then has the name of the call and the number of bytes. If REFUSE_ENDS is
 * set, the program ends with 0 at this request, so that its files show what it had done by then.
 *
 * The built program asks by malloc and realloc alone. The requests that the C library makes for it, as in getaddrinfo,
 * may come by any of the calls below. They count too. Those that the loader makes before the program begins don't.
 *
 * The clock of dates stands at 2023-11-14T22:13:20Z, so that each run prints and writes the same bytes.
 */
#define _GNU_SOURCE
#include <errno.h>
#include <fcntl.h>
#include <stdio.h>
#include <stdlib.h>
#include <sys/syscall.h>
#include <time.h>
#include <unistd.h>

/* The functions of glibc behind those below. To look them up by dlsym could take memory. */
extern void *__libc_malloc(size_t);
extern void *__libc_calloc(size_t, size_t);
extern void *__libc_realloc(void *, size_t);
extern void *__libc_memalign(size_t, size_t);

static int is_begun, ends;
static unsigned long made, refused;
static const char *path;

__attribute__((constructor)) static void begin(void)
{
    const char *number = getenv("REFUSE");
    refused = number ? strtoul(number, NULL, 10) : 0;
    path = getenv("REFUSED");
    ends = getenv("REFUSE_ENDS") != NULL;
    is_begun = 1;
}

/* Counts a request, and returns whether it is refused. */
static int is_refused(const char *call, size_t bytes)
{
    char line[64];
    int file, length;

    if (!is_begun || ++made != refused)
        return 0;
    length = snprintf(line, sizeof line, "%s %zu\n", call, bytes);
    file = path ? open(path, O_WRONLY | O_CREAT | O_EXCL, 0644) : -1;
    /* A file that can't be written would have the refusal go unnoticed. */
    if (file < 0 || write(file, line, length) != length || close(file) != 0)
        abort();
    if (ends)
        _exit(0);
    errno = ENOMEM;
    return 1;
}

void *malloc(size_t bytes)
{
    return is_refused("malloc", bytes) ? NULL : __libc_malloc(bytes);
}

void *calloc(size_t count, size_t bytes)
{
    return is_refused("calloc", count * bytes) ? NULL : __libc_calloc(count, bytes);
}

void *realloc(void *block, size_t bytes)
{
    return is_refused("realloc", bytes) ? NULL : __libc_realloc(block, bytes);
}

void *memalign(size_t alignment, size_t bytes)
{
    return is_refused("memalign", bytes) ? NULL : __libc_memalign(alignment, bytes);
}

void *aligned_alloc(size_t alignment, size_t bytes)
{
    return is_refused("aligned_alloc", bytes) ? NULL : __libc_memalign(alignment, bytes);
}

int posix_memalign(void **block, size_t alignment, size_t bytes)
{
    void *made_block;

    if (is_refused("posix_memalign", bytes))
        return ENOMEM;
    made_block = __libc_memalign(alignment, bytes);
    if (made_block == NULL)
        return ENOMEM;
    *block = made_block;
    return 0;
}

int clock_gettime(clockid_t clock, struct timespec *time)
{
    if (clock != CLOCK_REALTIME)
        return (int)syscall(SYS_clock_gettime, clock, time);
    time->tv_sec = 1700000000;
    time->tv_nsec = 0;
    return 0;
}
