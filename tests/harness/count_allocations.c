/* Counts the allocations of the program that loads it, and refuses one of them.
 *
 * Compile this file as a shared library and name it in LD_PRELOAD. Environment:
 *
 *     REFUSED   number of the allocation that fails with ENOMEM, counted from 1
 *     FROM      start to count after the first allocation of exactly this number of bytes
 *     COUNTED   file to which a line is appended for each write, each sync and the refusal, and at the end of the program
 *
 * A line is
 *
 *     COUNT WORD FILE TEXT
 *
 * COUNT is the number of allocations so far. WORD is write, sync, refused or end. FILE is the file descriptor. TEXT is the
 * text that was written, up to its first line feed and at most 80 bytes. realloc counts as an allocation, because it may
 * move the block. free is not counted.
 */
#define _GNU_SOURCE
#include <errno.h>
#include <fcntl.h>
#include <stdio.h>
#include <stdlib.h>
#include <string.h>
#include <sys/syscall.h>
#include <sys/uio.h>
#include <unistd.h>

enum { MOST_TEXT = 80 };

extern void *__libc_malloc(size_t);
extern void *__libc_calloc(size_t, size_t);
extern void *__libc_realloc(void *, size_t);
extern void *__libc_memalign(size_t, size_t);

static unsigned long count;
static unsigned long refused;
static size_t from;
static int counted = -1;

/* Appends a line to the file. Uses the system call directly, because stdio may allocate. */
static void tell(const char *word, int file, const char *text, size_t length)
{
    char line[MOST_TEXT + 80];
    int shown = 0;
    if (counted < 0)
        return;
    while (shown < MOST_TEXT && (size_t)shown < length && text[shown] != '\n')
        shown++;
    int used = snprintf(line, sizeof line, "%lu %s %d %.*s\n", count, word, file, shown, text);
    syscall(SYS_write, counted, line, used);
}

__attribute__((constructor)) static void begin(void)
{
    const char *number = getenv("REFUSED");
    const char *path = getenv("COUNTED");
    const char *length = getenv("FROM");
    from = length ? strtoul(length, NULL, 10) : 0;
    refused = number ? strtoul(number, NULL, 10) : 0;
    if (path)
        counted = (int)syscall(SYS_openat, AT_FDCWD, path, O_WRONLY | O_CREAT | O_APPEND | O_CLOEXEC, 0666);
    count = 0;
}

__attribute__((destructor)) static void end(void)
{
    tell("end", 0, "", 0);
}

/* Counts an allocation. Returns whether it must be refused. */
static int is_refused(size_t length)
{
    if (from) {
        if (length == from)
            from = 0;
        return 0;
    }
    count++;
    if (count != refused)
        return 0;
    tell("refused", 0, "", 0);
    errno = ENOMEM;
    return 1;
}

void *malloc(size_t length)
{
    return is_refused(length) ? NULL : __libc_malloc(length);
}

void *calloc(size_t items, size_t length)
{
    return is_refused(items * length) ? NULL : __libc_calloc(items, length);
}

void *realloc(void *old, size_t length)
{
    return is_refused(length) ? NULL : __libc_realloc(old, length);
}

void *aligned_alloc(size_t alignment, size_t length)
{
    return is_refused(length) ? NULL : __libc_memalign(alignment, length);
}

void *memalign(size_t alignment, size_t length)
{
    return aligned_alloc(alignment, length);
}

int posix_memalign(void **made, size_t alignment, size_t length)
{
    *made = aligned_alloc(alignment, length);
    return *made ? 0 : ENOMEM;
}

ssize_t write(int file, const void *text, size_t length)
{
    tell("write", file, text, length);
    return syscall(SYS_write, file, text, length);
}

ssize_t writev(int file, const struct iovec *parts, int number)
{
    tell("write", file, number ? parts[0].iov_base : "", number ? parts[0].iov_len : 0);
    return syscall(SYS_writev, file, parts, number);
}

ssize_t pwrite(int file, const void *text, size_t length, off_t at)
{
    tell("write", file, "", 0);
    return syscall(SYS_pwrite64, file, text, length, at);
}

ssize_t pwrite64(int file, const void *text, size_t length, off64_t at)
{
    return pwrite(file, text, length, at);
}

int fsync(int file)
{
    tell("sync", file, "", 0);
    return syscall(SYS_fsync, file);
}

int fdatasync(int file)
{
    tell("sync", file, "", 0);
    return syscall(SYS_fdatasync, file);
}
