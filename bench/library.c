/* Calls the library again and again, for bench/run: library FILE COMMAND STATUS COUNT THREADS

   Each of this many threads gives the request in FILE to the command of this number COUNT times; each call has to have this
   status. Written are the nanoseconds that passed, and those of all processors together. */
#define _GNU_SOURCE
#include "sigverify.h"

#include <pthread.h>
#include <stdio.h>
#include <stdlib.h>
#include <time.h>

enum { ROOM = 1 << 20 };

static uint8_t *request;
static size_t length;
static unsigned long command, status, count;

static _Noreturn void stop(const char *said) {
    fprintf(stderr, "library: %s\n", said);
    exit(2);
}

static void read_request(const char *path) {
    FILE *file = fopen(path, "rb");
    if (file == NULL || fseek(file, 0, SEEK_END) != 0) stop("the request cannot be read");
    length = (size_t)ftell(file);
    request = malloc(length + 1);
    rewind(file);
    if (request == NULL || fread(request, 1, length, file) != length) stop("the request cannot be read");
    fclose(file);
}

static void *calls(void *none) {
    uint8_t *reply = malloc(ROOM);
    size_t written;
    if (reply == NULL) stop("no memory");
    for (unsigned long at = 0; at < count; at++)
        if (sigverify_reply((uint32_t)command, request, length, reply, ROOM, &written) != status) stop("another status");
    free(reply);
    return none;
}

static long nanoseconds(clockid_t clock) {
    struct timespec now;
    if (clock_gettime(clock, &now) != 0) stop("no clock");
    return now.tv_sec * 1000000000 + now.tv_nsec;
}

int main(int argc, char **argv) {
    enum { MOST = 64 };
    pthread_t all[MOST];
    if (argc != 6) stop("FILE COMMAND STATUS COUNT THREADS");
    unsigned long threads = strtoul(argv[5], NULL, 10);
    read_request(argv[1]);
    command = strtoul(argv[2], NULL, 10), status = strtoul(argv[3], NULL, 10), count = strtoul(argv[4], NULL, 10);
    if (threads > MOST) stop("too many threads");
    long begun = nanoseconds(CLOCK_MONOTONIC), used = nanoseconds(CLOCK_PROCESS_CPUTIME_ID);
    for (unsigned long at = 0; at < threads; at++)
        if (pthread_create(&all[at], NULL, calls, NULL) != 0) stop("no thread");
    for (unsigned long at = 0; at < threads; at++) pthread_join(all[at], NULL);
    printf("%ld %ld\n", nanoseconds(CLOCK_MONOTONIC) - begun, nanoseconds(CLOCK_PROCESS_CPUTIME_ID) - used);
    return 0;
}
