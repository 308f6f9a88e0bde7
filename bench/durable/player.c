/* Plays requests on connections of a blobd, for bench/durable.py: player IN OUT REQUESTS [IN OUT REQUESTS]..

   IN and OUT are the named pipes of a connection, and REQUESTS is a file of requests (docs/PROTOCOL.md). A thread for each connection
   sends a request after the reply to the one before, which must be without error. Prints the seconds that all took, the number of
   requests, and the median, the 99th percentile and the maximum of the times of a request, in milliseconds. */
#include <fcntl.h>
#include <pthread.h>
#include <stdint.h>
#include <stdio.h>
#include <stdlib.h>
#include <string.h>
#include <sys/stat.h>
#include <time.h>
#include <unistd.h>

static const unsigned char GREETING[8] = "blobd\0\1\0";

struct connection {
    int to, back;
    unsigned char *requests;
    size_t length, count;
    double *times;
};

static pthread_barrier_t begun, ended;

static void fail(const char *what) {
    fprintf(stderr, "player: %s\n", what);
    exit(1);
}

static double now(void) {
    struct timespec time;
    clock_gettime(CLOCK_MONOTONIC, &time);
    return time.tv_sec + time.tv_nsec * 1e-9;
}

static void write_all(int fd, const unsigned char *bytes, size_t count) {
    while (count) {
        ssize_t written = write(fd, bytes, count);
        if (written <= 0)
            fail("cannot write a request");
        bytes += written;
        count -= written;
    }
}

static void read_all(int fd, unsigned char *bytes, size_t count) {
    while (count) {
        ssize_t found = read(fd, bytes, count);
        if (found <= 0)
            fail("a reply is missing");
        bytes += found;
        count -= found;
    }
}

static uint64_t number(const unsigned char *bytes, int count) {
    uint64_t found = 0;
    while (count--)
        found = found << 8 | bytes[count];
    return found;
}

/* The length of the request that begins here. */
static size_t length_of(const unsigned char *head) {
    return 32 + number(head + 2, 2) + number(head + 4, 2) + number(head + 6, 2) + number(head + 12, 4);
}

static void one_call(struct connection *it, const unsigned char *request, size_t length) {
    unsigned char head[32], rest[4096];
    write_all(it->to, request, length);
    read_all(it->back, head, 32);
    if (number(head, 4))
        fail("a request has failed");
    for (uint64_t left = number(head + 4, 4) + number(head + 24, 8); left;) {
        size_t piece = left < sizeof rest ? left : sizeof rest;
        read_all(it->back, rest, piece);
        left -= piece;
    }
}

static void *play(void *argument) {
    struct connection *it = argument;
    pthread_barrier_wait(&begun);
    for (size_t place = 0, call = 0; place < it->length; call++) {
        size_t length = length_of(it->requests + place);
        double start = now();
        one_call(it, it->requests + place, length);
        it->times[call] = now() - start;
        place += length;
    }
    pthread_barrier_wait(&ended);
    return NULL;
}

static void open_connection(struct connection *it, char **paths) {
    struct stat file;
    int requests = open(paths[2], O_RDONLY);
    it->to = open(paths[0], O_WRONLY);
    it->back = open(paths[1], O_RDONLY);
    if (it->to < 0 || it->back < 0 || requests < 0 || fstat(requests, &file))
        fail("cannot open a file");
    it->length = file.st_size;
    it->requests = malloc(it->length + 1);
    read_all(requests, it->requests, it->length);
    close(requests);
    for (size_t place = 0; place < it->length; place += length_of(it->requests + place))
        it->count++;
    it->times = malloc((it->count + 1) * sizeof *it->times);
}

static void greet(struct connection *it) {
    unsigned char greeting[8];
    write_all(it->to, GREETING, 8);
    read_all(it->back, greeting, 8);
    if (memcmp(greeting, GREETING, 8))
        fail("another greeting");
}

static int compare(const void *one, const void *other) {
    double a = *(const double *) one, b = *(const double *) other;
    return (a > b) - (a < b);
}

int main(int count, char **words) {
    int connections = (count - 1) / 3;
    struct connection *all = calloc(connections, sizeof *all);
    pthread_t thread;
    size_t calls = 0;
    pthread_barrier_init(&begun, NULL, connections + 1);
    pthread_barrier_init(&ended, NULL, connections + 1);
    for (int place = 0; place < connections; place++)
        open_connection(&all[place], words + 1 + 3 * place);
    for (int place = 0; place < connections; place++) {
        greet(&all[place]);
        calls += all[place].count;
        if (pthread_create(&thread, NULL, play, &all[place]))
            fail("cannot start a thread");
    }
    pthread_barrier_wait(&begun);
    double start = now();
    pthread_barrier_wait(&ended);
    double took = now() - start, *times = malloc((calls + 1) * sizeof *times);
    size_t place = 0;
    for (int other = 0; other < connections; place += all[other++].count)
        memcpy(times + place, all[other].times, all[other].count * sizeof *times);
    qsort(times, calls, sizeof *times, compare);
    printf("%f %zu %f %f %f\n", took, calls, times[calls / 2] * 1e3, times[calls * 99 / 100] * 1e3, times[calls - 1] * 1e3);
    return 0;
}
