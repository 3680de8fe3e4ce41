/* Changes the clocks of the program that loads this library, slows down its syncs, and counts its waits.
 *
 * Compile this file as a shared library and name it in LD_PRELOAD. Environment:
 *
 *     FAST_CLOCK     three numbers, `BEGAN FROM FASTER`: at the system's second BEGAN the realtime clock shows FROM, and from then on it runs
 *                    FASTER times as fast
 *     FASTER         the monotonic clock runs this many times as fast
 *     CLOCK_JUMP     while this file exists, the realtime clock shows as many seconds more as the file says, which may be less than 0, or an
 *                    hour more if the file is empty
 *     STEADY_JUMP    the same for the monotonic clock
 *     SLOW_SYNCS     while this file exists, each fdatasync and fsync takes 100 ms longer
 *     WATCHED_CALLS  file to which the counts are written at each count, `POLLS NAPS TESTS`: the calls of epoll_wait, those of nanosleep, and
 *                    the openings of /dev/null
 *
 * The timeout of epoll_wait is divided by FASTER. With FAST_CLOCK only one above 64 ms is, the longest pause between two checks of the
 * children: it waits for something that is due.
 */
#define _GNU_SOURCE
#include <fcntl.h>
#include <stdarg.h>
#include <stdio.h>
#include <stdlib.h>
#include <string.h>
#include <sys/epoll.h>
#include <sys/syscall.h>
#include <time.h>
#include <unistd.h>

enum { LAST_LOOK = 64, HOUR = 3600 };

static double began, from, faster = 1, steady_began, steady_faster = 1;
static const char *jump, *steady_jump, *slow;
static unsigned long polls, naps, tests;
static int counted = -1;

static double seconds(clockid_t clock)
{
    struct timespec now;
    syscall(SYS_clock_gettime, clock, &now);
    return (double)now.tv_sec + 1e-9 * (double)now.tv_nsec;
}

__attribute__((constructor)) static void begin(void)
{
    const char *path = getenv("WATCHED_CALLS"), *given = getenv("FAST_CLOCK"), *steady = getenv("FASTER");
    jump = getenv("CLOCK_JUMP");
    steady_jump = getenv("STEADY_JUMP");
    slow = getenv("SLOW_SYNCS");
    if (given)
        sscanf(given, "%lf %lf %lf", &began, &from, &faster);
    steady_faster = steady ? strtod(steady, NULL) : 1;
    steady_began = seconds(CLOCK_MONOTONIC);
    if (path)
        counted = (int)syscall(SYS_openat, AT_FDCWD, path, O_WRONLY | O_CREAT | O_TRUNC | O_CLOEXEC, 0666);
}

/* The seconds that the file says. */
static double seconds_in(const char *name)
{
    char text[32];
    int file = name ? (int)syscall(SYS_openat, AT_FDCWD, name, O_RDONLY | O_CLOEXEC) : -1;
    if (file < 0)
        return 0;
    ssize_t length = read(file, text, sizeof text - 1);
    close(file);
    if (length <= 0)
        return HOUR;
    text[length] = 0;
    return strtod(text, NULL);
}

int clock_gettime(clockid_t clock, struct timespec *now)
{
    double shown = seconds(clock);
    if (clock == CLOCK_REALTIME)
        shown = from + (shown - began) * faster + seconds_in(jump);
    if (clock == CLOCK_MONOTONIC)
        shown = steady_began + (shown - steady_began) * steady_faster + seconds_in(steady_jump);
    now->tv_sec = (time_t)shown;
    now->tv_nsec = (long)((shown - (double)now->tv_sec) * 1e9);
    return 0;
}

static void count(unsigned long *calls)
{
    char text[64];
    ++*calls;
    if (0 <= counted)
        syscall(SYS_pwrite64, counted, text, snprintf(text, sizeof text, "%lu %lu %lu\n", polls, naps, tests), 0L);
}

static int shorter(int millis)
{
    if (1 < steady_faster)
        return 0 < millis ? 1 + (int)(millis / steady_faster) : millis;
    return LAST_LOOK < millis ? 1 + (int)(millis / faster) : millis;
}

int epoll_wait(int poll, struct epoll_event *events, int most, int millis)
{
    count(&polls);
    return (int)syscall(SYS_epoll_pwait, poll, events, most, shorter(millis), NULL, 0);
}

int nanosleep(const struct timespec *pause, struct timespec *left)
{
    count(&naps);
    return (int)syscall(SYS_nanosleep, pause, left);
}

int open(const char *path, int flags, ...)
{
    va_list rest;
    va_start(rest, flags);
    mode_t mode = flags & (O_CREAT | O_TMPFILE) ? va_arg(rest, mode_t) : 0;
    va_end(rest);
    if (!strcmp(path, "/dev/null"))
        count(&tests);
    return (int)syscall(SYS_openat, AT_FDCWD, path, flags, mode);
}

static int synced(int call, int file)
{
    struct timespec pause = {0, 100000000};
    if (slow && !access(slow, F_OK))
        syscall(SYS_nanosleep, &pause, NULL);
    return (int)syscall(call, file);
}

int fdatasync(int file)
{
    return synced(SYS_fdatasync, file);
}

int fsync(int file)
{
    return synced(SYS_fsync, file);
}
