/* Polls one child as the service does, and does nothing else: poll_child PROGRAM [WORD..]
 *
 * Starts PROGRAM and asks the system again and again whether it has ended. The pause between two polls is a sixteenth of the time
 * that the child has run, from 0.05 ms to 64 ms. When it sees the end it prints the time in seconds since 1970, and its own
 * processor time in milliseconds.
 */
#define _GNU_SOURCE
#include <spawn.h>
#include <stdio.h>
#include <sys/epoll.h>
#include <sys/wait.h>
#include <time.h>

enum { SHORTEST = 50000, LONGEST = 64000000, PART = 16, MILLISECOND = 1000000 };

extern char **environ;

static long long nanoseconds(clockid_t clock)
{
    struct timespec now;
    clock_gettime(clock, &now);
    return now.tv_sec * 1000000000LL + now.tv_nsec;
}

/* Waits by a nap, if it is for less than a millisecond, and otherwise by epoll, which would also report clients. */
static void rest(int clients, long long pause)
{
    struct epoll_event event;
    struct timespec nap = {0, pause % MILLISECOND};
    if (pause < MILLISECOND)
        nanosleep(&nap, NULL);
    epoll_wait(clients, &event, 1, (int)(pause / MILLISECOND));
}

int main(int count, char **words)
{
    pid_t child;
    int clients = epoll_create1(EPOLL_CLOEXEC), status;
    if (count < 2 || clients < 0 || posix_spawnp(&child, words[1], NULL, NULL, words + 1, environ))
        return 1;
    long long begun = nanoseconds(CLOCK_MONOTONIC);
    while (waitpid(child, &status, WNOHANG) == 0) {
        long long pause = (nanoseconds(CLOCK_MONOTONIC) - begun) / PART;
        rest(clients, pause < SHORTEST ? SHORTEST : LONGEST < pause ? LONGEST : pause);
    }
    printf("%.6f %.6f\n", (double)nanoseconds(CLOCK_REALTIME) / 1e9, (double)nanoseconds(CLOCK_PROCESS_CPUTIME_ID) / 1e6);
    return 0;
}
