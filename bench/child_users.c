/* Measures the processor time of a child's script with and without a user of its own: child_users ROUNDS SCRIPT FOLDER UID NAME PROGRAM

   It runs six ways to start PROGRAM in turns, ROUNDS times each, and prints the median processor time of each in milliseconds,
   with everything that was run:

   1. `plain`: the script in the file SCRIPT, without a user.
   2. `user`: the script with the user UID, whose folder FOLDER is, as its own.
   3. `calls`: as `plain`, but run as the user by a process that does by system calls what the script does: two forks, a new session,
      the change of the user and its rights, the end of all its processes, a look at its folder, and a pipe for the status.
   4. `programs`: the programs that the script needs, by the shortest script that has them: setpriv, a shell, and setpriv.
   5. `least`: as `programs`, with the name NAME of the user and of its group instead of the number, without a fork of the inner shell
      that copies it, and with no more words than the second setpriv needs.
   6. `bare`: the shortest script without a user: setsid and env. */
#define _GNU_SOURCE
#include <dirent.h>
#include <grp.h>
#include <linux/capability.h>
#include <signal.h>
#include <stdio.h>
#include <stdlib.h>
#include <string.h>
#include <sys/prctl.h>
#include <sys/resource.h>
#include <sys/syscall.h>
#include <sys/wait.h>
#include <unistd.h>

#define WAYS 6
#define LONGEST 1000

/* The shortest script that starts a shell as a user in a session of its own, up to the inner shell's script, and the end of both. */
#define OUTER "(exec /usr/bin/setsid /usr/bin/setpriv --reuid %s --regid %s --clear-groups --no-new-privs --inh-caps=-all,+setpcap" \
              " --ambient-caps=-all,+setpcap --bounding-set=-all,+setpcap /bin/sh -c "
#define ENDS "; exit $?')\nexit $?"

static char *empty[] = {NULL};
static char script[65536], shortest[1024], least[1024], bare[1024];
static char *folder, *user, *name, *program;

static double used(void)
{
    struct rusage all;
    getrusage(RUSAGE_CHILDREN, &all);
    return (all.ru_utime.tv_sec + all.ru_stime.tv_sec) * 1e3 + (all.ru_utime.tv_usec + all.ru_stime.tv_usec) / 1e3;
}

static void run_script(int as_user)
{
    char *who = as_user ? user : "", *place = as_user ? folder : "", *own = as_user ? "own" : "";
    char *words[] = {"/bin/sh", "-c", script, "sh", "/dev/null", "/dev/null", "", "", "", "2097152", who, who, place, own, "", "", "",
                     "CHARSET=utf-8", "CONTENT_TYPE=a/b", "DEVICE_URI=nothing:/", "FINAL_CONTENT_TYPE=a/b", "LANG=C",
                     "PATH=/usr/bin:/bin", "PRINTER=q", "SPOOL_ATTEMPT=1", "SPOOL_STAGE=1", "TMPDIR=/tmp", program, NULL};
    execve(words[0], words, empty);
    _exit(127);
}

/* The child has no rights, no other group, and cannot gain any. */
static void become(int number)
{
    struct __user_cap_header_struct head = {_LINUX_CAPABILITY_VERSION_3, 0};
    struct __user_cap_data_struct none[2] = {{0}};
    for (int cap = 0; prctl(PR_CAPBSET_READ, cap) >= 0; cap++)
        prctl(PR_CAPBSET_DROP, cap);
    if (setgroups(0, NULL) || setresgid(number, number, number) || setresuid(number, number, number))
        _exit(126);
    prctl(PR_SET_NO_NEW_PRIVS, 1, 0, 0, 0);
    syscall(SYS_capset, &head, none);
}

static int wait_for(pid_t child)
{
    int status = 0;
    waitpid(child, &status, 0);
    return WIFEXITED(status) ? WEXITSTATUS(status) : 128 + WTERMSIG(status);
}

static void run_calls(void)
{
    int ends[2];
    char status = 126;
    if (pipe(ends))
        _exit(126);
    pid_t inner = fork();
    if (inner == 0) {
        setsid();
        become(atoi(user));
        pid_t child = fork();
        if (child == 0)
            run_script(0);
        status = wait_for(child);
        kill(-1, SIGKILL);
        DIR *place = opendir(folder);
        while (place && readdir(place))
            ;
        _exit(write(ends[1], &status, 1) != 1);
    }
    close(ends[1]);
    if (read(ends[0], &status, 1) != 1)
        status = 126;
    wait_for(inner);
    _exit(status);
}

static void run_way(int way)
{
    if (way == 2)
        run_calls();
    if (way >= 3)
        execle("/bin/sh", "/bin/sh", "-c", way == 3 ? shortest : way == 4 ? least : bare, NULL, empty);
    run_script(way == 1);
}

static int compare(const void *one, const void *other)
{
    double difference = *(double *)one - *(double *)other;
    return difference < 0 ? -1 : difference > 0;
}

int main(int count, char **words)
{
    static double times[WAYS][LONGEST];
    int rounds = count == 7 ? atoi(words[1]) : 0;
    FILE *file = count == 7 ? fopen(words[2], "r") : NULL;
    if (rounds < 1 || rounds > LONGEST || file == NULL || fread(script, 1, sizeof script - 1, file) == 0)
        return 2;
    folder = words[3], user = words[4], name = words[5], program = words[6];
    snprintf(shortest, sizeof shortest, OUTER "'(exec /usr/bin/setpriv --inh-caps=-all --ambient-caps=-all --bounding-set=-all %s)" ENDS,
             user, user, program);
    snprintf(bare, sizeof bare, "exec /usr/bin/setsid /usr/bin/env -i %s", program);
    snprintf(least, sizeof least, OUTER "'/usr/bin/setpriv --inh-caps=-all --bounding-set=-setpcap %s" ENDS, name, name, program);
    for (int round = 0; round < rounds; round++)
        for (int way = 0; way < WAYS; way++) {
            double before = used();
            pid_t child = fork();
            if (child == 0)
                run_way(way);
            if (wait_for(child)) {
                fprintf(stderr, "way %d failed\n", way + 1);
                return 1;
            }
            times[way][round] = used() - before;
        }
    for (int way = 0; way < WAYS; way++) {
        qsort(times[way], rounds, sizeof(double), compare);
        printf("%.3f%c", times[way][rounds / 2], way == WAYS - 1 ? '\n' : ' ');
    }
    return 0;
}
