/* Sends requests of IPP over many connections of one process: ipp_load SOCKET CONNECTIONS COUNT FILE..
 *
 * Each FILE is a whole request of HTTP. A connection sends them in turn, each after the reply to the one before, COUNT times. If a request has
 * the attribute `job-id`, its value is replaced by the one of the last reply. A reply must have the status 200, and successful-ok or one of its
 * kind. Prints the seconds from the first request to the last reply.
 *
 * The process waits for all connections by epoll(7) and parses as little as it must, so that its own time is small next to the server's.
 */
#define _GNU_SOURCE
#include <errno.h>
#include <fcntl.h>
#include <stdio.h>
#include <stdlib.h>
#include <string.h>
#include <sys/epoll.h>
#include <sys/socket.h>
#include <sys/un.h>
#include <time.h>
#include <unistd.h>

#define MOST_REPLY 65536

static const char MARK[] = "\x21\x00\x06job-id\x00\x04";
#define MARK_LENGTH (sizeof MARK - 1)

struct request {
    char *bytes;
    size_t length, number; /* where the value of job-id is, or `length` */
};

struct connection {
    int socket, at, left; /* the request that is sent now, and how many rounds are left */
    size_t sent, got;
    char number[4], reply[MOST_REPLY + 1];
};

static struct request *requests;
static int count_of_requests, polled;

static void fail(const char *what)
{
    fprintf(stderr, "ipp_load: %s: %s\n", what, strerror(errno));
    exit(1);
}

static void reject(const char *what)
{
    fprintf(stderr, "ipp_load: %s\n", what);
    exit(1);
}

static double now(void)
{
    struct timespec time;
    clock_gettime(CLOCK_MONOTONIC, &time);
    return (double)time.tv_sec + (double)time.tv_nsec / 1e9;
}

static struct request request_in(const char *path)
{
    struct request found = {NULL, 0, 0};
    FILE *file = fopen(path, "rb");
    if (!file || fseek(file, 0, SEEK_END))
        fail(path);
    found.length = (size_t)ftell(file);
    found.bytes = malloc(found.length);
    rewind(file);
    if (!found.bytes || fread(found.bytes, 1, found.length, file) != found.length)
        fail(path);
    fclose(file);
    char *mark = memmem(found.bytes, found.length, MARK, MARK_LENGTH);
    found.number = mark ? (size_t)(mark - found.bytes) + MARK_LENGTH : found.length;
    return found;
}

static int connected(const char *path)
{
    struct sockaddr_un name = {.sun_family = AF_UNIX};
    if (strlen(path) >= sizeof name.sun_path)
        reject("the path of the socket is too long");
    strcpy(name.sun_path, path);
    int made = socket(AF_UNIX, SOCK_STREAM, 0);
    if (made < 0 || connect(made, (struct sockaddr *)&name, sizeof name) || fcntl(made, F_SETFL, O_NONBLOCK))
        fail(path);
    return made;
}

/* Asks to be called when the connection can be read, or written too. */
static void await(struct connection *it, unsigned events, int how)
{
    struct epoll_event event = {.events = events, .data.ptr = it};
    if (epoll_ctl(polled, how, it->socket, &event))
        fail("epoll_ctl");
}

/* The next bytes of the request: those before the number of the job, the number, or those after it. */
static ssize_t send_some(struct connection *it)
{
    const struct request *request = &requests[it->at];
    size_t number = request->number, end = request->length;
    if (it->sent < number)
        return send(it->socket, request->bytes + it->sent, number - it->sent, MSG_NOSIGNAL | (number < end ? MSG_MORE : 0));
    if (it->sent < number + 4)
        return send(it->socket, it->number + (it->sent - number), number + 4 - it->sent, MSG_NOSIGNAL | MSG_MORE);
    return send(it->socket, request->bytes + it->sent, end - it->sent, MSG_NOSIGNAL);
}

static void send_all(struct connection *it)
{
    while (it->sent < requests[it->at].length) {
        ssize_t count = send_some(it);
        if (count < 0 && errno == EAGAIN) {
            await(it, EPOLLIN | EPOLLOUT, EPOLL_CTL_MOD);
            return;
        }
        if (count < 0)
            fail("send");
        it->sent += (size_t)count;
    }
}

/* The length of the content, after its length or in one chunk and the last one. `*content` is where it begins. Returns 0 until it is whole. */
static size_t content_of(struct connection *it, char **content)
{
    it->reply[it->got] = 0;
    char *end = strstr(it->reply, "\r\n\r\n");
    if (!end)
        return 0;
    if (strncmp(it->reply, "HTTP/1.1 200", 12))
        reject("the status of HTTP is not 200");
    char *field = strcasestr(it->reply, "\r\ncontent-length:");
    size_t length;
    *content = end + 4;
    if (field && field < end) {
        length = strtoul(field + 17, NULL, 10);
        return *content + length <= it->reply + it->got ? length : 0;
    }
    length = strtoul(*content, content, 16);
    *content += 2;
    return *content + length + 7 <= it->reply + it->got ? length : 0;
}

/* Reads what has come. Returns whether the reply is whole. */
static int has_reply(struct connection *it)
{
    ssize_t count = recv(it->socket, it->reply + it->got, MOST_REPLY - it->got, 0);
    if (count < 0 && errno == EAGAIN)
        return 0;
    if (count <= 0)
        fail("recv");
    it->got += (size_t)count;
    char *content;
    size_t length = content_of(it, &content);
    if (length < 8)
        return 0;
    if (content[2] != 0)
        reject("a request is refused");
    char *mark = memmem(content, length, MARK, MARK_LENGTH);
    if (mark)
        memcpy(it->number, mark + MARK_LENGTH, 4);
    return 1;
}

/* Goes on with a connection. Returns whether it has ended. */
static int go_on(struct connection *it, unsigned events)
{
    if (events & EPOLLOUT) {
        await(it, EPOLLIN, EPOLL_CTL_MOD);
        send_all(it);
    }
    if (!(events & EPOLLIN) || !has_reply(it))
        return 0;
    it->at = (it->at + 1) % count_of_requests;
    it->left -= it->at == 0;
    it->sent = it->got = 0;
    if (it->left == 0) {
        close(it->socket);
        return 1;
    }
    send_all(it);
    return 0;
}

int main(int argc, char **argv)
{
    if (argc < 5)
        reject("usage: ipp_load SOCKET CONNECTIONS COUNT FILE..");
    int connections = atoi(argv[2]), open = connections;
    count_of_requests = argc - 4;
    requests = calloc((size_t)count_of_requests, sizeof *requests);
    struct connection *all = calloc((size_t)connections, sizeof *all);
    polled = epoll_create1(0);
    if (!requests || !all || polled < 0)
        fail("start");
    for (int i = 0; i < count_of_requests; i++)
        requests[i] = request_in(argv[4 + i]);
    for (int i = 0; i < connections; i++) {
        all[i].socket = connected(argv[1]);
        all[i].left = atoi(argv[3]);
        await(&all[i], EPOLLIN, EPOLL_CTL_ADD);
    }
    double start = now();
    for (int i = 0; i < connections; i++)
        send_all(&all[i]);
    while (open > 0) {
        struct epoll_event events[64];
        int count = epoll_wait(polled, events, 64, -1);
        if (count < 0 && errno != EINTR)
            fail("epoll_wait");
        for (int i = 0; i < count; i++)
            open -= go_on(events[i].data.ptr, events[i].events);
    }
    printf("%.6f\n", now() - start);
    return 0;
}
