#define _GNU_SOURCE
#include "blobd.h"
#include <errno.h>
#include <fcntl.h>
#include <poll.h>
#include <spawn.h>
#include <stdio.h>
#include <stdlib.h>
#include <string.h>
#include <sys/wait.h>
#include <unistd.h>

#define HEAD 32
#define MAX_TEXT 1024

static const char greeting[8] = {'b', 'l', 'o', 'b', 'd', 0, 1, 0};

extern char **environ;

struct blobd_connection { int to, from; };
struct blobd { pid_t pid; size_t count; struct blobd_connection connections[]; };

static int put(int fd, const void *bytes, size_t length) {
    const char *at = bytes;
    while (length > 0) {
        ssize_t n = write(fd, at, length);
        if (n < 0 && errno == EINTR) continue;
        if (n <= 0) return -1;
        at += n;
        length -= (size_t)n;
    }
    return 0;
}

static int take(int fd, void *bytes, size_t length) {
    char *at = bytes;
    while (length > 0) {
        ssize_t n = read(fd, at, length);
        if (n < 0 && errno == EINTR) continue;
        if (n <= 0) return -1;
        at += n;
        length -= (size_t)n;
    }
    return 0;
}

static void store_le(unsigned char *at, uint64_t n, int bytes) {
    for (int i = 0; i < bytes; i++) at[i] = (unsigned char)(n >> (8 * i));
}

static uint64_t load_le(const unsigned char *at, int bytes) {
    uint64_t n = 0;
    for (int i = 0; i < bytes; i++) n |= (uint64_t)at[i] << (8 * i);
    return n;
}

/* Encodes a request's head and texts, and returns their length. A text is cut at MAX_TEXT bytes; valid texts are shorter. */
static size_t head_of(unsigned char *frame, enum blobd_command command, const struct blobd_request *request) {
    const char *texts[3] = {request->repo, request->digest, request->source};
    size_t length = HEAD;
    memset(frame, 0, HEAD);
    frame[0] = (unsigned char)command;
    frame[1] = request->ranged != 0;
    for (int i = 0; i < 3; i++) {
        size_t n = texts[i] ? strnlen(texts[i], MAX_TEXT) : 0;
        store_le(frame + 2 + 2 * i, n, 2);
        if (n > 0) memcpy(frame + length, texts[i], n);
        length += n;
    }
    store_le(frame + 8, request->number, 4);
    store_le(frame + 12, request->length, 4);
    store_le(frame + 16, request->start, 8);
    store_le(frame + 24, request->end, 8);
    return length;
}

int blobd_call(blobd_connection *connection, enum blobd_command command, const struct blobd_request *request,
               struct blobd_reply *reply) {
    static const struct blobd_request none;
    unsigned char frame[HEAD + 3 * MAX_TEXT], head[HEAD];
    if (!request) request = &none;
    memset(reply, 0, sizeof *reply);
    reply->status = BLOBD_LOST;
    size_t length = head_of(frame, command, request);
    if (put(connection->to, frame, length) || put(connection->to, request->body, request->length)) return BLOBD_LOST;
    if (take(connection->from, head, HEAD)) return BLOBD_LOST;
    uint64_t digest = load_le(head + 4, 4);
    if (digest > BLOBD_MAX_DIGEST || take(connection->from, reply->digest, digest)) return BLOBD_LOST;
    reply->first = load_le(head + 8, 8);
    reply->second = load_le(head + 16, 8);
    reply->body = load_le(head + 24, 8);
    return reply->status = (int)load_le(head, 4);
}

int blobd_body(blobd_connection *connection, void *bytes, size_t length) {
    return take(connection->from, bytes, length) ? BLOBD_LOST : 0;
}

blobd_connection *blobd_at(blobd *store, size_t number) {
    return number < store->count ? &store->connections[number] : NULL;
}

/* Exchanges the greetings on a connection. Returns 0, or an errno, also if the program has ended. */
static int greet(blobd *store, struct blobd_connection *connection) {
    char answer[sizeof greeting];
    struct pollfd ready = {.fd = connection->from, .events = POLLIN};
    if (put(connection->to, greeting, sizeof greeting)) return EPIPE;
    while (poll(&ready, 1, 20) <= 0) {
        if (waitpid(store->pid, NULL, WNOHANG) == store->pid) {
            store->pid = 0;
            return ECHILD;
        }
    }
    if (take(connection->from, answer, sizeof answer)) return EPIPE;
    return memcmp(answer, greeting, sizeof answer) ? EPROTO : 0;
}

/* Returns the path by which another program opens a file of this process, or NULL if allocation fails. */
static char *name_of(int fd) {
    char *name;
    return asprintf(&name, "/proc/%ld/fd/%d", (long)getpid(), fd) < 0 ? NULL : name;
}

/* Makes a connection, the other side's ends, and the paths by which the program opens them. Returns 0, or an errno without
 * leaving anything open. */
static int make_connection(struct blobd_connection *connection, int peer[2], char *arguments[2]) {
    int request[2], answer[2], error;
    if (pipe2(request, O_CLOEXEC)) return errno;
    if (pipe2(answer, O_CLOEXEC)) {
        error = errno;
        close(request[0]);
        close(request[1]);
        return error;
    }
    fcntl(request[1], F_SETPIPE_SZ, 1 << 20);
    fcntl(answer[1], F_SETPIPE_SZ, 1 << 20);
    *connection = (struct blobd_connection){request[1], answer[0]};
    peer[0] = request[0];
    peer[1] = answer[1];
    arguments[0] = name_of(peer[0]);
    arguments[1] = name_of(peer[1]);
    if (arguments[0] && arguments[1]) return 0;
    for (int i = 0; i < 2; i++) {
        close(request[i]);
        close(answer[i]);
        free(arguments[i]);
    }
    return ENOMEM;
}

int blobd_open(const char *program, uint32_t slots, uint64_t max_blob, const char *const *tenants, size_t count,
               size_t connections, blobd **out) {
    size_t made = 0, first = count + 4;
    int error = 0;
    *out = NULL;
    if (connections == 0) return EINVAL;
    blobd *store = calloc(1, sizeof *store + connections * sizeof store->connections[0]);
    char **arguments = calloc(first + 2 * connections + 1, sizeof *arguments);
    int(*peer)[2] = calloc(connections, sizeof *peer);
    if (!store || !arguments || !peer) error = ENOMEM;
    char numbers[2][24];
    if (!error) {
        snprintf(numbers[0], sizeof numbers[0], "%lu", (unsigned long)slots);
        snprintf(numbers[1], sizeof numbers[1], "%llu", (unsigned long long)max_blob);
        arguments[0] = (char *)program;
        arguments[1] = numbers[0];
        arguments[2] = numbers[1];
        for (size_t i = 0; i < count; i++) arguments[3 + i] = (char *)tenants[i];
        arguments[first - 1] = "--";
    }
    while (!error && made < connections) {
        error = make_connection(&store->connections[made], peer[made], &arguments[first + 2 * made]);
        if (!error) store->count = ++made;
    }
    if (!error) error = posix_spawnp(&store->pid, program, NULL, NULL, arguments, environ);
    /* After the greeting the program has its ends of a connection open. This side then closes its copies, so that it sees when
     * the program closes them. */
    for (size_t i = 0; !error && i < connections; i++) error = greet(store, &store->connections[i]);
    for (size_t i = 0; i < made; i++) {
        close(peer[i][0]);
        close(peer[i][1]);
        free(arguments[first + 2 * i]);
        free(arguments[first + 2 * i + 1]);
    }
    free(arguments);
    free(peer);
    if (error && store) blobd_close(store);
    if (!error) *out = store;
    return error;
}

int blobd_close(blobd *store) {
    int status = 0;
    for (size_t i = 0; i < store->count; i++) {
        close(store->connections[i].to);
        close(store->connections[i].from);
    }
    pid_t pid = store->pid;
    free(store);
    if (pid == 0) return 0;
    while (waitpid(pid, &status, 0) < 0 && errno == EINTR) {}
    return WIFEXITED(status) ? WEXITSTATUS(status) : 128;
}
