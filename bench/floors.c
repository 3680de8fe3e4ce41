/* Measures the minimum cost of a spooler's events and of its children, and prints a time in seconds.

   floors DISK EVENTS BYTES: the time of EVENTS events. An event is a record of BYTES bytes in the file DISK, with two writes and
   two syncs: the record after its first byte, and then its first byte. A spool makes the same four calls for each event.

   floors COUNT GROUP FOLDER PROGRAM [DISK]: the time of COUNT children. It launches GROUP copies of PROGRAM at once through
   `/bin/sh -c` and `env -i`, waits for them, and repeats this until COUNT copies have run.

   Without DISK it journals nothing, reads no output, and gives a child no variables. With DISK it does everything that a
   spooler with the same promises must do:

   - It checks that the program can be run.
   - It starts the child in a session of its own, with default signals and descriptors, and with the variables and arguments
     of a job. The child's script distinguishes a file that cannot be opened from a failure of the program.
   - It reads what the child wrote.
   - It journals the start and the end of each child in the file DISK, each as an event. */
#define _GNU_SOURCE
#include <fcntl.h>
#include <signal.h>
#include <spawn.h>
#include <stdio.h>
#include <stdlib.h>
#include <sys/stat.h>
#include <sys/wait.h>
#include <time.h>
#include <unistd.h>

#define EVENT 32     /* length of a child's event with its gate, in bytes */
#define LONGEST 64   /* greatest length of an argument list */

static char *empty[] = {NULL};

static char short_script[] = "exec /usr/bin/env -i \"$4\" <\"$1\" >\"$2\" 2>\"$3\" 4</dev/null";

static char whole_script[] = "run() {\n"
                             "    { shift 7; exec /usr/bin/setsid /usr/bin/env -i \"$@\"; } <\"$1\" >\"$2\" 2>\"$3\" 3<>/dev/null 4</dev/null\n"
                             "    exit 126\n"
                             "}\n"
                             "umask 077\n"
                             "ulimit -f \"$7\"\n"
                             "[ -n \"$4\" ] || run \"$@\"\n"
                             "(run \"$@\")\n"
                             "status=$?\n"
                             "\"$5\" ${6:+\"$6\"} \"$4\"\n"
                             "exit $status\n";

static char *variables[] = {"CHARSET=utf-8",
                            "CONTENT_TYPE=application/octet-stream",
                            "CUPS_FILETYPE=document",
                            "DEVICE_URI=nothing:/",
                            "FINAL_CONTENT_TYPE=application/octet-stream",
                            "LANG=C",
                            "PATH=/usr/bin:/bin",
                            "PRINTER=q0",
                            "PRINTER_INFO=",
                            "PRINTER_LOCATION=",
                            "TMPDIR=.",
                            "SPOOL_ATTEMPT=1",
                            "SPOOL_SIDE=",
                            "SPOOL_STAGE=1",
                            NULL};

static char *words[] = {"1", "ann", "t", "1", "", NULL};

struct child {
    char in[256], out[256], err[256];
    int output, errors;
    pid_t pid;
};

static void need(int holds)
{
    if (!holds)
        exit(1);
}

static int make(const char *folder, const char *name, int n, char *path, size_t size)
{
    snprintf(path, size, "%s/%s-%d", folder, name, n);
    int file = open(path, O_CREAT | O_EXCL | O_RDWR | O_CLOEXEC, 0600);
    need(file >= 0);
    return file;
}

static void journal(int disk, size_t length)
{
    static off_t end = 0;
    static const char event[1 << 20];
    if (disk < 0)
        return;
    need(length <= sizeof event && pwrite(disk, event, length - 1, end + 1) == (ssize_t)length - 1 && !fdatasync(disk));
    need(pwrite(disk, "\xa5", 1, end) == 1 && !fdatasync(disk));
    end += (off_t)length;
}

static void start_bare(struct child *child, char *program)
{
    char *call[] = {"/bin/sh", "-c", short_script, "sh", "/dev/null", child->out, child->err, program, NULL};
    need(!posix_spawn(&child->pid, call[0], NULL, NULL, call, empty));
}

static void start_whole(struct child *child, char *program)
{
    struct stat found;
    need(!stat(program, &found) && S_ISREG(found.st_mode) && found.st_mode & 0111);
    char *call[LONGEST] = {"/bin/sh", "-c", whole_script, "sh", "/dev/null", child->out, child->err, "", "", "", "2097152"};
    char **next = call + 11;
    for (char **it = variables; *it; it++)
        *next++ = *it;
    *next++ = program;
    for (char **it = words; *it; it++)
        *next++ = *it;
    *next++ = child->in;
    posix_spawn_file_actions_t files;
    posix_spawnattr_t how;
    sigset_t all, none;
    sigfillset(&all);
    sigemptyset(&none);
    need(!posix_spawn_file_actions_init(&files) && !posix_spawnattr_init(&how));
    for (int fd = 0; fd < 3; fd++)
        need(!posix_spawn_file_actions_addopen(&files, fd, "/dev/null", fd ? O_WRONLY : O_RDONLY, 0));
    need(!posix_spawn_file_actions_addclosefrom_np(&files, 3));
    need(!posix_spawnattr_setsigdefault(&how, &all) && !posix_spawnattr_setsigmask(&how, &none));
    need(!posix_spawnattr_setflags(&how, POSIX_SPAWN_SETSIGDEF | POSIX_SPAWN_SETSIGMASK));
    need(!posix_spawn(&child->pid, call[0], &files, &how, call, empty));
    posix_spawn_file_actions_destroy(&files);
    posix_spawnattr_destroy(&how);
}

static void start(struct child *child, const char *folder, int n, char *program, int disk)
{
    close(make(folder, "in", n, child->in, sizeof child->in));
    child->output = make(folder, "out", n, child->out, sizeof child->out);
    child->errors = make(folder, "err", n, child->err, sizeof child->err);
    if (disk < 0)
        start_bare(child, program);
    else
        start_whole(child, program);
}

static void take(int file, int is_read)
{
    char bytes[4096];
    while (is_read && read(file, bytes, sizeof bytes) > 0)
        ;
    close(file);
}

static void finish(struct child *child, int disk)
{
    int status;
    need(waitpid(child->pid, &status, 0) == child->pid && !status);
    take(child->output, disk >= 0);
    take(child->errors, disk >= 0);
    unlink(child->in);
    unlink(child->out);
    unlink(child->err);
    journal(disk, EVENT);
}

/* Creates a file of this number of zeros, or of the default size of a spool's disk, if that is more. */
static int make_disk(const char *path, off_t length)
{
    static const char zeros[4194304];
    int disk = open(path, O_CREAT | O_TRUNC | O_RDWR | O_CLOEXEC, 0600);
    need(disk >= 0);
    for (off_t at = 0; at == 0 || at < length; at += (off_t)sizeof zeros)
        need(write(disk, zeros, sizeof zeros) == sizeof zeros);
    need(!fsync(disk));
    return disk;
}

static double now(void)
{
    struct timespec time;
    clock_gettime(CLOCK_MONOTONIC, &time);
    return (double)time.tv_sec + 1e-9 * (double)time.tv_nsec;
}

static void run_events(int disk, int count, size_t length)
{
    for (int n = 0; n < count; n++)
        journal(disk, length);
}

static void run_children(int count, int group, const char *folder, char *program, int disk)
{
    struct child children[group];
    for (int ran = 0; ran < count; ran += group) {
        run_events(disk, group, EVENT);
        for (int n = 0; n < group; n++)
            start(&children[n], folder, n, program, disk);
        for (int n = 0; n < group; n++)
            finish(&children[n], disk);
    }
}

int main(int count_of_words, char **given)
{
    if (count_of_words < 4 || count_of_words > 6)
        return 2;
    int disk = -1, count = atoi(given[count_of_words == 4 ? 2 : 1]), group = atoi(given[2]);
    if (count_of_words == 4)
        disk = make_disk(given[1], (off_t)count * atol(given[3]));
    /* Only whole groups are run, so the number may exceed COUNT. A child has two events. */
    if (count_of_words == 6)
        disk = make_disk(given[5], (off_t)2 * (count + group) * EVENT);
    double begin = now();
    if (count_of_words == 4)
        run_events(disk, count, (size_t)atol(given[3]));
    else
        run_children(count, group, given[3], given[4], disk);
    printf("%f\n", now() - begin);
    return 0;
}
